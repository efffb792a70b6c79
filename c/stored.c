/* A stored list of rows with its total, from C: built from items, changed in place, full, and with a total that is wrong.
 *
 *     cc -Itarget/include c/stored.c target/lib/libfernsponge.a -o target/stored && target/stored
 */
#include "fernsponge.h"

#include <stdio.h>

/* The keys of the rows 0, 10, 20 and 24: eight bytes each. */
static const uint8_t pool[] = {
    0, 0, 0, 0, 0, 0, 0, 0,
    0, 0, 0, 0, 0, 0, 0, 10,
    0, 0, 0, 0, 0, 0, 0, 20,
    0, 0, 0, 0, 0, 0, 0, 24,
};

enum { KEY = 8, ITEMS = 2, WORDS = FERNSPONGE_ITEM_WORDS * ITEMS, ROWS = 100, ROOM = 2 };

#define KEY_AT(number) KEY * (number), KEY

/* The rows from 0 on, below 10, and from 20 on, below 24. */
static const uint32_t items[WORDS] = {
    FERNSPONGE_RANGE, FERNSPONGE_PLAIN, KEY_AT(0), KEY_AT(1),
    FERNSPONGE_RANGE, FERNSPONGE_PLAIN, KEY_AT(2), KEY_AT(3),
};

struct stored {
    uint64_t words[2 * ROOM];
    uint64_t pairs;
    uint64_t total;
};

static uint64_t cover(struct stored *list, uint64_t start, uint64_t end)
{
    return fernsponge_cover(list->words, 2 * ROOM, list->pairs, list->total, start, end, &list->pairs, &list->total);
}

static uint64_t uncover(struct stored *list, uint64_t start, uint64_t end)
{
    return fernsponge_uncover(list->words, 2 * ROOM, list->pairs, list->total, start, end, &list->pairs, &list->total);
}

/* A refusal in words: an index behind the last pair is that of the total. */
static void print_refusal(uint64_t refusal, uint64_t pairs)
{
    unsigned number = FERNSPONGE_NUMBER(refusal);
    uint64_t index = FERNSPONGE_INDEX(refusal);
    const char *why = number == 9   ? index < pairs ? "this pair is not canonical" : "the total is wrong"
                      : number == 6 ? "the new list has more pairs than room"
                                    : "malformed";
    printf("refused %u, index %llu: %s\n", number, (unsigned long long)index, why);
}

/* What was done, then the list as it stands, or why it was not done. */
static void print_list(const char *done, uint64_t refusal, const struct stored *list)
{
    printf("%s: ", done);
    if (refusal != 0) {
        print_refusal(refusal, list->pairs);
        return;
    }
    for (uint64_t i = 0; i < list->pairs; i++) {
        printf("[%llu,%llu) ", (unsigned long long)list->words[2 * i], (unsigned long long)list->words[2 * i + 1]);
    }
    printf("total %llu\n", (unsigned long long)list->total);
}

int main(void)
{
    struct stored list = {{0}, 0, 0};
    uint64_t rows = 0;

    uint64_t refusal = fernsponge_from_query_items(pool, sizeof pool, items, WORDS, ROWS, list.words, 2 * ROOM, &list.pairs, &list.total);
    print_list("built", refusal, &list);
    print_list("cover 12 to 15", cover(&list, 12, 15), &list);
    print_list("cover 8 to 20", cover(&list, 8, 20), &list);
    print_list("uncover 3 to 5", uncover(&list, 3, 5), &list);
    print_list("uncover 7 to 7", uncover(&list, 7, 7), &list);

    refusal = fernsponge_stored_total(list.words, 2 * ROOM, list.pairs, list.total, &rows);
    if (refusal != 0) {
        print_refusal(refusal, list.pairs);
        return 1;
    }
    printf("the stored total is %llu\n", (unsigned long long)rows);
    list.total++;
    print_list("uncover 7 to 7, the total one more", uncover(&list, 7, 7), &list);
    return 0;
}
