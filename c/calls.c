/* Every function of the header, called once or a few times, with the answer that it has to give; and every constant as a number. It prints that
 * all of them are so, or the line of the first answer that is another, and ends with 1. It does not compile where a constant is another number.
 *
 *     cc -Itarget/include c/calls.c target/lib/libfernsponge.a -o target/calls && target/calls
 */
#include "fernsponge.h"

#include <stddef.h>
#include <stdio.h>
#include <stdlib.h>
#include <string.h>

/* Not assert(), which is nothing where NDEBUG is set. */
#define CHECK(holds)                                                            \
    do {                                                                        \
        if (!(holds)) {                                                         \
            printf("%s:%d: not so: %s\n", __FILE__, __LINE__, #holds);          \
            exit(1);                                                            \
        }                                                                       \
    } while (0)

/* Whether an array has these elements. */
#define HAS(array, type, ...) (memcmp((array), (const type[]){__VA_ARGS__}, sizeof((const type[]){__VA_ARGS__})) == 0)

#define LENGTH(array) (sizeof(array) / sizeof((array)[0]))

/* A refusal put together. */
#define REFUSAL(number, side, index) ((uint64_t)(number) + 256 * (side) + 65536 * (uint64_t)(index))

/* What a program is compiled with has to be what the library was: the names stand for these numbers. */
_Static_assert(FERNSPONGE_REFUSED_MALFORMED == 1 && FERNSPONGE_REFUSED_KEY_OUTSIDE == 2 && FERNSPONGE_REFUSED_NOT_UPRIGHT == 3 &&
                   FERNSPONGE_REFUSED_OUT_OF_ORDER == 4 && FERNSPONGE_REFUSED_WRAPPED == 5 && FERNSPONGE_REFUSED_NO_ROOM == 6 &&
                   FERNSPONGE_REFUSED_NO_POSITION == 7 && FERNSPONGE_REFUSED_NOT_ASCENDING == 8 && FERNSPONGE_REFUSED_NOT_CANONICAL == 9 &&
                   FERNSPONGE_REFUSED_BAD_ROW == 12 && FERNSPONGE_REFUSED_AMOUNT_OUTSIDE == 14 && FERNSPONGE_REFUSED_TOO_MANY_KEYS == 15 &&
                   FERNSPONGE_REFUSED_EMPTY_WINDOWS == 16,
               "a refusal has another number");
_Static_assert(FERNSPONGE_OURS == 0 && FERNSPONGE_THEIRS == 1, "a side has another number");
_Static_assert(FERNSPONGE_KEY == 0 && FERNSPONGE_RANGE == 1 && FERNSPONGE_RANGE_INCLUSIVE == 2 && FERNSPONGE_RANGE_FULL == 3 &&
                   FERNSPONGE_RANGE_FROM == 4 && FERNSPONGE_RANGE_TO == 5 && FERNSPONGE_RANGE_TO_INCLUSIVE == 6 &&
                   FERNSPONGE_RANGE_AFTER == 7 && FERNSPONGE_RANGE_AFTER_TO == 8 && FERNSPONGE_RANGE_AFTER_TO_INCLUSIVE == 9,
               "a code has another number");
_Static_assert(FERNSPONGE_PLAIN == 0 && FERNSPONGE_COUNT == 1 && FERNSPONGE_SUM == 2 && FERNSPONGE_COUNT_AND_SUM == 3,
               "a wrapper has another number");
_Static_assert(FERNSPONGE_UNBOUNDED_START == 0 && FERNSPONGE_UNBOUNDED_END == 1 && FERNSPONGE_INCLUSIVE == 2 &&
                   FERNSPONGE_EXCLUSIVE_START == 3 && FERNSPONGE_EXCLUSIVE_END == 4,
               "a kind has another number");
_Static_assert(FERNSPONGE_MOST_ITEMS == 2048 && FERNSPONGE_MOST_POOL_BYTES == 65536 && FERNSPONGE_MOST_KEY_BYTES == 255 &&
                   FERNSPONGE_MOST_INVOICE_KEYS == 1000 && FERNSPONGE_LEAST_AMOUNT == -1000000000000 &&
                   FERNSPONGE_MOST_AMOUNT == 1000000000000 && FERNSPONGE_POSITION_KEY_BYTES == 8 && FERNSPONGE_MOST_REPORT_BYTES == 394 &&
                   FERNSPONGE_MOST_ROW_BYTES == 1045 && FERNSPONGE_MOST_INDEX == 1099511627776,
               "a limit is another number");
_Static_assert(FERNSPONGE_ITEM_WORDS == 6 && FERNSPONGE_SET_WORDS == 6 && FERNSPONGE_MAYBE_WORDS == 7 && FERNSPONGE_EXAMPLES == 16,
               "a count of words is another number");
_Static_assert(offsetof(struct fernsponge_part, at) == 0 && offsetof(struct fernsponge_part, length) == sizeof(void *),
               "a part is its address and then its length");
_Static_assert(offsetof(struct fernsponge_span, start) == 0 && offsetof(struct fernsponge_span, end) == 8, "a span is its start and then its end");

/* The key of one byte b stands at offset b. */
static const uint8_t pool[] = {0, 1, 2, 3, 4, 5, 6, 7, 8, 9};

#define KEY(b) FERNSPONGE_KEY, FERNSPONGE_PLAIN, b, 1, 0, 0
#define RANGE(a, b) FERNSPONGE_RANGE, FERNSPONGE_PLAIN, a, 1, b, 1
#define RANGE_INCLUSIVE(a, b) FERNSPONGE_RANGE_INCLUSIVE, FERNSPONGE_PLAIN, a, 1, b, 1

static void keys(void)
{
    const uint8_t five[] = {5}, longer[] = {5, 0};
    CHECK(fernsponge_compare(five, 1, longer, 2) == 0);
    CHECK(fernsponge_compare(five, 1, pool + 5, 1) == 1);
    CHECK(fernsponge_compare(longer, 2, five, 1) == 2);

    struct fernsponge_part part = {.at = five, .length = 0};
    fernsponge_order_items(longer, 2, five, 1, &part);
    CHECK(part.at == five && part.length == 1);
    fernsponge_order_items(five, 1, pool + 5, 1, &part);
    CHECK(part.at == pool + 5 && part.length == 1);
}

static void boundaries(void)
{
    const uint8_t five[] = {5};
    uint32_t order = 7, inverted = 7;
    CHECK(fernsponge_compare_boundaries(FERNSPONGE_EXCLUSIVE_END, five, 1, FERNSPONGE_INCLUSIVE, five, 1, &order) == 0 && order == 0);
    CHECK(fernsponge_compare_boundaries(FERNSPONGE_UNBOUNDED_END, five, 1, FERNSPONGE_INCLUSIVE, five, 1, &order) == 0 && order == 2);
    /* there is no sixth kind, and nothing is written */
    CHECK(fernsponge_compare_boundaries(5, five, 1, FERNSPONGE_INCLUSIVE, five, 1, &order) == REFUSAL(FERNSPONGE_REFUSED_MALFORMED, 0, 0));
    CHECK(order == 2);

    CHECK(fernsponge_invert(FERNSPONGE_INCLUSIVE, true, &inverted) == 0 && inverted == FERNSPONGE_EXCLUSIVE_START);
    CHECK(fernsponge_invert(FERNSPONGE_INCLUSIVE, false, &inverted) == 0 && inverted == FERNSPONGE_EXCLUSIVE_END);
}

static void one_item(void)
{
    const uint32_t item[] = {RANGE(1, 5)}, after[] = {FERNSPONGE_RANGE_AFTER, FERNSPONGE_COUNT, 5, 1, 0, 0};
    const uint8_t next[] = {5, 0};
    uint32_t range[FERNSPONGE_SET_WORDS], held[2], yes = 7;
    CHECK(fernsponge_to_range_set(pool, sizeof pool, item, range) == 0);
    CHECK(HAS(range, uint32_t, FERNSPONGE_INCLUSIVE, FERNSPONGE_EXCLUSIVE_END, 1, 1, 5, 1));

    const uint32_t point[] = {FERNSPONGE_INCLUSIVE, FERNSPONGE_INCLUSIVE, 5, 1, 5, 1};
    const uint32_t none[] = {FERNSPONGE_UNBOUNDED_END, FERNSPONGE_INCLUSIVE, 0, 0, 5, 1};
    uint32_t converted[FERNSPONGE_MAYBE_WORDS];
    CHECK(fernsponge_to_query_item(pool, sizeof pool, point, converted) == 0);
    CHECK(HAS(converted, uint32_t, 1, KEY(5)));
    CHECK(fernsponge_to_query_item(pool, sizeof pool, none, converted) == 0);
    CHECK(HAS(converted, uint32_t, 0, 0, 0, 0, 0, 0, 0));

    CHECK(fernsponge_could_contain_key(pool, sizeof pool, item, pool + 5, 1, held) == 0);
    CHECK(HAS(held, uint32_t, 0, 1));
    CHECK(fernsponge_could_have_items_in_direction(pool, sizeof pool, after, next, 2, true, &yes) == 0 && yes == 1);
    CHECK(fernsponge_could_have_items_in_direction(pool, sizeof pool, item, pool + 5, 1, false, &yes) == 0 && yes == 0);
}

/* Each code, with the start 3 and the end 7 where it has them: which of five keys its item holds. */
static void codes(void)
{
    static const struct {
        uint32_t item[FERNSPONGE_ITEM_WORDS], held[5];
    } cases[] = {
        {.item = {FERNSPONGE_KEY, FERNSPONGE_PLAIN, 3, 1, 0, 0}, .held = {0, 1, 0, 0, 0}},
        {.item = {FERNSPONGE_RANGE, FERNSPONGE_COUNT, 3, 1, 7, 1}, .held = {0, 1, 1, 0, 0}},
        {.item = {FERNSPONGE_RANGE_INCLUSIVE, FERNSPONGE_SUM, 3, 1, 7, 1}, .held = {0, 1, 1, 1, 0}},
        {.item = {FERNSPONGE_RANGE_FULL, FERNSPONGE_COUNT_AND_SUM, 0, 0, 0, 0}, .held = {1, 1, 1, 1, 1}},
        {.item = {FERNSPONGE_RANGE_FROM, FERNSPONGE_PLAIN, 3, 1, 0, 0}, .held = {0, 1, 1, 1, 1}},
        {.item = {FERNSPONGE_RANGE_TO, FERNSPONGE_PLAIN, 0, 0, 7, 1}, .held = {1, 1, 1, 0, 0}},
        {.item = {FERNSPONGE_RANGE_TO_INCLUSIVE, FERNSPONGE_PLAIN, 0, 0, 7, 1}, .held = {1, 1, 1, 1, 0}},
        {.item = {FERNSPONGE_RANGE_AFTER, FERNSPONGE_PLAIN, 3, 1, 0, 0}, .held = {0, 0, 1, 1, 1}},
        {.item = {FERNSPONGE_RANGE_AFTER_TO, FERNSPONGE_PLAIN, 3, 1, 7, 1}, .held = {0, 0, 1, 0, 0}},
        {.item = {FERNSPONGE_RANGE_AFTER_TO_INCLUSIVE, FERNSPONGE_PLAIN, 3, 1, 7, 1}, .held = {0, 0, 1, 1, 0}},
    };
    static const uint8_t asked[] = {2, 3, 5, 7, 8};
    for (size_t i = 0; i < LENGTH(cases); i++) {
        for (size_t j = 0; j < LENGTH(asked); j++) {
            uint32_t held[2] = {7, 7};
            CHECK(fernsponge_could_contain_key(pool, sizeof pool, cases[i].item, asked + j, 1, held) == 0 && held[0] == cases[i].held[j]);
        }
    }
}

static void lists(void)
{
    const uint32_t ours[] = {RANGE_INCLUSIVE(1, 3), RANGE_INCLUSIVE(7, 9)}, theirs[] = {RANGE_INCLUSIVE(2, 8)};
    const uint32_t turned[] = {KEY(5), KEY(1)};
    uint64_t found[2], counts[3];
    CHECK(fernsponge_check_list(pool, sizeof pool, ours, LENGTH(ours), false) == 0);
    uint64_t refused = fernsponge_check_list(pool, sizeof pool, turned, LENGTH(turned), true);
    CHECK(FERNSPONGE_NUMBER(refused) == FERNSPONGE_REFUSED_OUT_OF_ORDER);
    CHECK(FERNSPONGE_SIDE(refused) == FERNSPONGE_THEIRS && FERNSPONGE_INDEX(refused) == 1);

    CHECK(fernsponge_find_item(pool, sizeof pool, ours, LENGTH(ours), pool + 8, 1, found) == 0);
    CHECK(HAS(found, uint64_t, 1, 1));
    CHECK(fernsponge_find_item(pool, sizeof pool, ours, LENGTH(ours), pool + 5, 1, found) == 0);
    CHECK(HAS(found, uint64_t, 0, 0));

    const uint32_t five[] = {RANGE(1, 5)}, three[] = {KEY(3)};
    uint32_t both[FERNSPONGE_MAYBE_WORDS], left[2][FERNSPONGE_MAYBE_WORDS], right[2][FERNSPONGE_MAYBE_WORDS];
    CHECK(fernsponge_intersect_items(pool, sizeof pool, five, three, both, left[0], right[0], left[1], right[1]) == 0);
    CHECK(HAS(both, uint32_t, 1, KEY(3)) && HAS(left[0], uint32_t, 1, RANGE(1, 3)));
    CHECK(HAS(right[0], uint32_t, 1, FERNSPONGE_RANGE_AFTER_TO, FERNSPONGE_PLAIN, 3, 1, 5, 1));
    CHECK(left[1][0] == 0 && right[1][0] == 0);

    uint32_t shared_out[18], ours_out[18], theirs_out[18];
    CHECK(fernsponge_intersect_many(pool, sizeof pool, ours, LENGTH(ours), theirs, LENGTH(theirs), shared_out, LENGTH(shared_out),
                                    ours_out, LENGTH(ours_out), theirs_out, LENGTH(theirs_out), counts) == 0);
    CHECK(HAS(counts, uint64_t, 2, 2, 1));
    CHECK(HAS(shared_out, uint32_t, RANGE_INCLUSIVE(2, 3), RANGE_INCLUSIVE(7, 8)));
    CHECK(HAS(ours_out, uint32_t, RANGE(1, 2), FERNSPONGE_RANGE_AFTER_TO_INCLUSIVE, FERNSPONGE_PLAIN, 8, 1, 9, 1));
    CHECK(HAS(theirs_out, uint32_t, FERNSPONGE_RANGE_AFTER_TO, FERNSPONGE_PLAIN, 3, 1, 7, 1));
}

static void insertion(void)
{
    uint32_t words[] = {RANGE_INCLUSIVE(1, 3), KEY(5), KEY(9), KEY(7)};
    const uint32_t item[] = {RANGE(2, 6)}, touching[] = {RANGE_INCLUSIVE(6, 8)};
    uint64_t after = 0;
    /* the first two merge with it; words up to the old count become 0, and later ones stay */
    CHECK(fernsponge_insert_item(pool, sizeof pool, words, LENGTH(words), 3, item, &after) == 0 && after == 2);
    CHECK(HAS(words, uint32_t, RANGE(1, 6), KEY(9), 0, 0, 0, 0, 0, 0, KEY(7)));
    CHECK(fernsponge_insert_item(pool, sizeof pool, words, LENGTH(words), 2, touching, &after) == 0 && after == 3);
    CHECK(HAS(words, uint32_t, RANGE(1, 6), RANGE_INCLUSIVE(6, 8), KEY(9), KEY(7)));
    /* an equal item is replaced; a wrapped one stays beside the plain one of its range, the later one first */
    const uint32_t nine[] = {KEY(9)}, counted[] = {FERNSPONGE_KEY, FERNSPONGE_COUNT, 9, 1, 0, 0};
    uint32_t other[18] = {RANGE(1, 6), KEY(9)};
    CHECK(fernsponge_insert_item(pool, sizeof pool, other, LENGTH(other), 2, nine, &after) == 0 && after == 2);
    CHECK(fernsponge_insert_item(pool, sizeof pool, other, LENGTH(other), 2, counted, &after) == 0 && after == 3);
    CHECK(HAS(other, uint32_t, RANGE(1, 6), FERNSPONGE_KEY, FERNSPONGE_COUNT, 9, 1, 0, 0, KEY(9)));
    /* there is no room for a fourth item in three */
    const uint32_t zero[] = {KEY(0)};
    CHECK(fernsponge_insert_item(pool, sizeof pool, words, 18, 3, zero, &after) == REFUSAL(FERNSPONGE_REFUSED_NO_ROOM, 0, 0) && after == 3);

    /* nor for a 2,049th, whatever is lent */
    enum { ITEMS = FERNSPONGE_MOST_ITEMS + 1 };
    static uint8_t large[2 * ITEMS];
    static uint32_t list[FERNSPONGE_ITEM_WORDS * ITEMS];
    for (uint32_t i = 0; i < ITEMS; i++) {
        const uint32_t key[] = {FERNSPONGE_KEY, FERNSPONGE_PLAIN, 2 * i, 2, 0, 0};
        large[2 * i] = (uint8_t)(i >> 8);
        large[2 * i + 1] = (uint8_t)i;
        memcpy(list + FERNSPONGE_ITEM_WORDS * i, key, sizeof key);
    }
    const uint32_t *last = list + FERNSPONGE_ITEM_WORDS * FERNSPONGE_MOST_ITEMS;
    uint32_t one_more[FERNSPONGE_ITEM_WORDS];
    memcpy(one_more, last, sizeof one_more);
    CHECK(fernsponge_insert_item(large, sizeof large, list, LENGTH(list), FERNSPONGE_MOST_ITEMS, one_more, &after) ==
          REFUSAL(FERNSPONGE_REFUSED_NO_ROOM, 0, 0));
}

static void collecting(void)
{
    const char old[] = "xbbaaxbb";
    uint8_t fresh[] = "........";
    uint32_t ours[] = {FERNSPONGE_RANGE, FERNSPONGE_PLAIN, 3, 2, 1, 2}, theirs[] = {FERNSPONGE_KEY, FERNSPONGE_PLAIN, 6, 2, 0, 0};
    uint64_t used = 0;
    CHECK(fernsponge_collect((const uint8_t *)old, 8, fresh, 8, ours, 6, theirs, 6, &used) == 0 && used == 4);
    CHECK(memcmp(fresh, "aabb....", 8) == 0);
    CHECK(HAS(ours, uint32_t, FERNSPONGE_RANGE, FERNSPONGE_PLAIN, 0, 2, 2, 2));
    CHECK(HAS(theirs, uint32_t, FERNSPONGE_KEY, FERNSPONGE_PLAIN, 2, 2, 0, 0));
}

static void sheets(void)
{
    const char text[] = "Range,01,\"05\"\r\nKey,-,", plain[] = "Range,01,05\r\nKey,-,\r\n", bad[] = "Key,03,\r\nkey,03,\r\n";
    uint8_t read_pool[4] = {7, 7, 7, 7}, written[32];
    uint32_t words[12];
    uint64_t items = 0, bytes = 0;
    CHECK(fernsponge_read_sheet((const uint8_t *)text, sizeof text - 1, read_pool, 4, words, 12, &items, &bytes) == 0);
    CHECK(items == 2 && bytes == 2 && HAS(read_pool, uint8_t, 1, 5, 7, 7));
    CHECK(HAS(words, uint32_t, FERNSPONGE_RANGE, FERNSPONGE_PLAIN, 0, 1, 1, 1, FERNSPONGE_KEY, FERNSPONGE_PLAIN, 2, 0, 0, 0));
    CHECK(fernsponge_read_sheet((const uint8_t *)bad, sizeof bad - 1, read_pool, 4, words, 12, &items, &bytes) ==
          REFUSAL(FERNSPONGE_REFUSED_BAD_ROW, 0, 1));
    CHECK(fernsponge_write_sheet(read_pool, 2, words, 12, written, sizeof written, &bytes) == 0);
    CHECK(bytes == sizeof plain - 1 && memcmp(written, plain, sizeof plain - 1) == 0);
}

static void cards(void)
{
    const uint32_t words[] = {RANGE(1, 5), KEY(7)}, keys[] = {1, 1, 7, 1, 6, 1, 7, 1};
    const int64_t amounts[] = {123450, -50}, outside[] = {0, FERNSPONGE_MOST_AMOUNT + 1};
    uint32_t has = 7;
    int64_t amount = 7, sum = 7, cents = 7;
    uint64_t without = 7;
    CHECK(fernsponge_to_cents(150) == 2 && fernsponge_to_cents(-50) == 0 && fernsponge_to_cents(-151) == -2);
    CHECK(fernsponge_rate(pool, sizeof pool, words, LENGTH(words), amounts, 2, pool + 4, 1, &has, &amount) == 0);
    CHECK(has == 1 && amount == 123450);
    CHECK(fernsponge_rate(pool, sizeof pool, words, LENGTH(words), amounts, 2, pool + 5, 1, &has, &amount) == 0);
    CHECK(has == 0 && amount == 0);
    CHECK(fernsponge_rate(pool, sizeof pool, words, LENGTH(words), outside, 2, pool + 5, 1, &has, &amount) ==
          REFUSAL(FERNSPONGE_REFUSED_AMOUNT_OUTSIDE, 0, 1));
    CHECK(fernsponge_invoice(pool, sizeof pool, words, LENGTH(words), amounts, 2, keys, LENGTH(keys), &sum, &without, &cents) == 0);
    CHECK(sum == 123350 && without == 1 && cents == 1234);
}

static void positions(void)
{
    /* the positions 2, 5 and 7 as keys of 8 bytes */
    uint8_t keys[24] = {0};
    keys[7] = 2, keys[15] = 5, keys[23] = 7;
    const uint32_t items[] = {FERNSPONGE_RANGE, 0, 0, 8, 8, 8, FERNSPONGE_KEY, 0, 8, 8, 0, 0, FERNSPONGE_RANGE_INCLUSIVE, 0, 8, 8, 16, 8};
    uint64_t position = 0, out[7] = {9, 9, 9, 9, 9, 9, 9}, pairs = 0, total = 0, rows = 0, after = 0;
    uint32_t yes = 7;
    CHECK(fernsponge_be_u64(keys + 8, 8, &position) == 0 && position == 5);
    CHECK(fernsponge_be_u64(keys, 7, &position) == REFUSAL(FERNSPONGE_REFUSED_NO_POSITION, 0, 0));
    /* three ranges merge to one pair: there is no room for them in two pairs */
    CHECK(fernsponge_from_query_items(keys, sizeof keys, items, LENGTH(items), 100, out, 5, &pairs, &total) ==
          REFUSAL(FERNSPONGE_REFUSED_NO_ROOM, 0, 0));
    CHECK(fernsponge_from_query_items(keys, sizeof keys, items, LENGTH(items), 100, out, 7, &pairs, &total) == 0);
    CHECK(pairs == 1 && total == 6 && HAS(out, uint64_t, 2, 8, 0, 0, 0, 0, 9));

    CHECK(fernsponge_contains(out, 2, 7, &yes) == 0 && yes == 1);
    CHECK(fernsponge_contains(out, 2, 8, &yes) == 0 && yes == 0);
    CHECK(fernsponge_len(out, 2, &rows) == 0 && rows == 6);
    CHECK(fernsponge_is_empty(out, 2, &yes) == 0 && yes == 0);
    CHECK(fernsponge_is_empty(out, 0, &yes) == 0 && yes == 1);

    CHECK(fernsponge_stored_total(out, 7, 1, 6, &rows) == 0 && rows == 6);
    CHECK(fernsponge_stored_total(out, 7, 1, 5, &rows) == REFUSAL(FERNSPONGE_REFUSED_NOT_CANONICAL, 0, 1));
    CHECK(fernsponge_uncover(out, 7, 1, 6, 4, 5, &after, &rows) == 0);
    CHECK(after == 2 && rows == 5 && HAS(out, uint64_t, 2, 4, 5, 8, 0, 0, 9));
    CHECK(fernsponge_cover(out, 7, 2, 5, 4, 9, &after, &rows) == 0);
    CHECK(after == 1 && rows == 7 && HAS(out, uint64_t, 2, 9, 0, 0, 0, 0, 9));
}

static void reports(void)
{
    const uint64_t covered[] = {0, 20}, three[] = {3}, proved[] = {7, 20}, turned[] = {3, 3};
    const struct fernsponge_span spans[] = {{.start = 0, .end = 18}};
    uint64_t total = 7, count = 7, examples[FERNSPONGE_EXAMPLES], written = 0;
    uint8_t text[FERNSPONGE_MOST_REPORT_BYTES];
    CHECK(fernsponge_empty_report(&total, &count, examples) == 0);
    CHECK(total == 0 && count == 0 && HAS(examples, uint64_t, 0, 0, 0, 0, 0, 0, 0, 0, 0, 0, 0, 0, 0, 0, 0, 0));
    CHECK(fernsponge_missing_from(covered, 2, three, 1, &total, &count, examples) == 0);
    CHECK(total == 19 && count == 16 && HAS(examples, uint64_t, 0, 1, 2, 4, 5, 6, 7, 8, 9, 10, 11, 12, 13, 14, 15, 16));
    CHECK(fernsponge_missing_from(covered, 2, turned, 2, &total, &count, examples) == REFUSAL(FERNSPONGE_REFUSED_NOT_ASCENDING, 1, 1));
    CHECK(fernsponge_missing_from_spans(covered, 2, spans, 1, &total, &count, examples) == 0);
    CHECK(total == 2 && count == 2 && HAS(examples, uint64_t, 18, 19, 0));
    CHECK(fernsponge_extra_in(covered, 2, proved, 2, &total, &count, examples) == 0);
    CHECK(total == 1 && count == 1 && HAS(examples, uint64_t, 20, 0));
    CHECK(fernsponge_describe(total, count, examples, text, sizeof text, &written) == 0);
    CHECK(written == 17 && memcmp(text, "1 positions: [20]", 17) == 0);
    CHECK(fernsponge_describe(total, FERNSPONGE_EXAMPLES + 1, examples, text, sizeof text, &written) ==
          REFUSAL(FERNSPONGE_REFUSED_MALFORMED, 0, 0));
}

static void plans(void)
{
    const uint64_t covered[] = {0, 10}, proved[] = {3, 4};
    uint64_t out[7] = {9, 9, 9, 9, 9, 9, 9}, windows = 0;
    uint32_t yes = 7;
    CHECK(fernsponge_plan_refetch(covered, 2, proved, 2, 4, out, 7, &windows) == 0);
    CHECK(windows == 3 && HAS(out, uint64_t, 0, 3, 5, 9, 9, 10, 9));
    CHECK(fernsponge_plan_refetch(covered, 2, proved, 2, 0, out, 7, &windows) == REFUSAL(FERNSPONGE_REFUSED_EMPTY_WINDOWS, 0, 0));
    CHECK(fernsponge_check_plan(covered, 2, proved, 2, 4, out, 6, &yes) == 0 && yes == 1);
    CHECK(fernsponge_check_plan(covered, 2, proved, 2, 4, out, 4, &yes) == 0 && yes == 0);
}

int main(void)
{
    keys();
    boundaries();
    one_item();
    codes();
    lists();
    insertion();
    collecting();
    sheets();
    cards();
    positions();
    reports();
    plans();
    puts("calls: every function of fernsponge " FERNSPONGE_VERSION " answers as it has to");
    return 0;
}
