/* The document's listing from C: what the lists {[01,05)} and {03} share, what only ours holds and what only theirs holds.
 *
 *     cc -Itarget/include c/listing.c target/lib/libfernsponge.a -o target/listing && target/listing
 */
#include "fernsponge.h"

#include <stdio.h>

enum { ROOM = 2 };

static const char *const names[] = {
    "Key", "Range", "RangeInclusive", "RangeFull", "RangeFrom", "RangeTo", "RangeToInclusive", "RangeAfter", "RangeAfterTo",
    "RangeAfterToInclusive",
};

static void print_key(const uint8_t *pool, uint32_t offset, uint32_t length)
{
    putchar(' ');
    for (uint32_t i = 0; i < length; i++) {
        printf("%02X", pool[offset + i]);
    }
    if (length == 0) {
        putchar('-');
    }
}

static void print_list(const char *title, const uint8_t *pool, const uint32_t *words, uint64_t count)
{
    printf("%s %llu\n", title, (unsigned long long)count);
    for (uint64_t i = 0; i < count; i++) {
        const uint32_t *item = words + FERNSPONGE_ITEM_WORDS * i;
        uint32_t code = item[0];
        int has_start = code <= FERNSPONGE_RANGE_INCLUSIVE || code == FERNSPONGE_RANGE_FROM || code >= FERNSPONGE_RANGE_AFTER;
        int has_end = code == FERNSPONGE_RANGE || code == FERNSPONGE_RANGE_INCLUSIVE || code == FERNSPONGE_RANGE_TO ||
                      code == FERNSPONGE_RANGE_TO_INCLUSIVE || code >= FERNSPONGE_RANGE_AFTER_TO;
        fputs(names[code], stdout);
        if (has_start) {
            print_key(pool, item[2], item[3]);
        }
        if (has_end) {
            print_key(pool, item[4], item[5]);
        }
        putchar('\n');
    }
}

int main(void)
{
    const uint8_t pool[] = {0x01, 0x05, 0x03};
    const uint32_t ours[] = {FERNSPONGE_RANGE, FERNSPONGE_PLAIN, 0, 1, 1, 1};
    const uint32_t theirs[] = {FERNSPONGE_KEY, FERNSPONGE_PLAIN, 2, 1, 0, 0};
    uint32_t shared_out[FERNSPONGE_ITEM_WORDS * ROOM], ours_out[FERNSPONGE_ITEM_WORDS * ROOM];
    uint32_t theirs_out[FERNSPONGE_ITEM_WORDS * ROOM];
    uint64_t counts[3];

    uint64_t refusal = fernsponge_intersect_many(pool, sizeof pool, ours, FERNSPONGE_ITEM_WORDS, theirs, FERNSPONGE_ITEM_WORDS,
                                                 shared_out, FERNSPONGE_ITEM_WORDS * ROOM, ours_out, FERNSPONGE_ITEM_WORDS * ROOM,
                                                 theirs_out, FERNSPONGE_ITEM_WORDS * ROOM, counts);
    if (refusal != 0) {
        fprintf(stderr, "refused %u side %u index %llu\n", FERNSPONGE_NUMBER(refusal), FERNSPONGE_SIDE(refusal),
                (unsigned long long)FERNSPONGE_INDEX(refusal));
        return 1;
    }
    print_list("shared", pool, shared_out, counts[0]);
    print_list("ours", pool, ours_out, counts[1]);
    print_list("theirs", pool, theirs_out, counts[2]);
    return 0;
}
