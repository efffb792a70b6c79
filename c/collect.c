/* Collecting a pool, from C: lanes that merge leave keys that no item names; the keys in use are packed into a fresh pool, and one more item is
 * inserted, whose keys are written behind them.
 *
 *     cc -Itarget/include c/collect.c target/lib/libfernsponge.a -o target/collect && target/collect
 */
#include "fernsponge.h"

#include <stdio.h>
#include <string.h>

/* Lanes have eight bytes. */
enum { LANE = 8, ROOM = 80, ITEMS = 3, WORDS = FERNSPONGE_ITEM_WORDS * ITEMS };

struct pool {
    uint8_t bytes[ROOM];
    uint64_t used;
};

struct list {
    uint32_t words[WORDS];
    uint64_t count;
};

static struct pool old_pool, fresh_pool;
static struct list ours, theirs;

/* Writes a lane behind the used bytes of a pool: its offset. */
static uint32_t add(struct pool *pool, const char *lane)
{
    uint32_t offset = (uint32_t)pool->used;
    memcpy(pool->bytes + offset, lane, LANE);
    pool->used += LANE;
    return offset;
}

/* Inserts the lanes from one to another. */
static uint64_t insert(struct pool *pool, struct list *list, const char *from, const char *to)
{
    uint32_t start = add(pool, from), end = add(pool, to);
    const uint32_t item[] = {FERNSPONGE_RANGE_INCLUSIVE, FERNSPONGE_PLAIN, start, LANE, end, LANE};
    return fernsponge_insert_item(pool->bytes, pool->used, list->words, WORDS, list->count, item, &list->count);
}

/* Collects the old pool into so many bytes of the fresh one. */
static uint64_t collect(size_t room)
{
    return fernsponge_collect(old_pool.bytes, old_pool.used, fresh_pool.bytes, room, ours.words, FERNSPONGE_ITEM_WORDS * ours.count, theirs.words,
                              FERNSPONGE_ITEM_WORDS * theirs.count, &fresh_pool.used);
}

static void print_list(const char *whose, const struct pool *pool, const struct list *list)
{
    printf("  %s", whose);
    for (uint64_t i = 0; i < list->count; i++) {
        const uint32_t *item = list->words + FERNSPONGE_ITEM_WORDS * i;
        printf(" %.*s-%.*s (%u, %u)", LANE, (const char *)pool->bytes + item[2], LANE, (const char *)pool->bytes + item[4], (unsigned)item[2],
               (unsigned)item[4]);
    }
    printf("\n");
}

/* What was done, or why it was not; then the bytes of a pool, and each item of both lists: its lanes, and their offsets. */
static void print_all(const char *done, uint64_t refusal, const struct pool *pool)
{
    printf("%s: ", done);
    if (refusal != 0) {
        printf("refused %u, index %llu%s\n", FERNSPONGE_NUMBER(refusal), (unsigned long long)FERNSPONGE_INDEX(refusal),
               FERNSPONGE_NUMBER(refusal) == 6 ? ": more room is needed than was lent" : "");
    } else {
        printf("%llu bytes are used\n", (unsigned long long)pool->used);
    }
    printf("  pool %.*s\n", ROOM, (const char *)pool->bytes);
    print_list("ours", pool, &ours);
    print_list("theirs", pool, &theirs);
}

int main(void)
{
    memset(old_pool.bytes, '.', ROOM);
    memset(fresh_pool.bytes, '.', ROOM);

    uint64_t refusal = insert(&old_pool, &ours, "DE-AT/03", "DE-AT/05");
    if (refusal == 0) {
        refusal = insert(&old_pool, &ours, "DE-AT/04", "DE-AT/09");
    }
    if (refusal == 0) {
        refusal = insert(&old_pool, &ours, "DE-AT/01", "DE-AT/03");
    }
    if (refusal == 0) {
        refusal = insert(&old_pool, &theirs, "DE-AT/09", "DE-PL/01");
    }
    print_all("insert", refusal, &old_pool);

    print_all("collect into 23 bytes", collect(23), &old_pool);
    printf("  fresh %.*s, %llu bytes are used\n", ROOM, (const char *)fresh_pool.bytes, (unsigned long long)fresh_pool.used);
    print_all("collect into 80 bytes", collect(ROOM), &fresh_pool);

    print_all("insert one more", insert(&fresh_pool, &ours, "DE-FR/01", "DE-FR/05"), &fresh_pool);
    return 0;
}
