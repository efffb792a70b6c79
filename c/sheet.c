/* A lane sheet, from C: read into a pool and a list, and written again in its plain form; then a sheet with a bad row, one whose key has no room in
 * the pool, and a list with a wrapped item.
 *
 *     cc -Itarget/include c/sheet.c target/lib/libfernsponge.a -o target/sheet && target/sheet
 */
#include "fernsponge.h"

#include <stdio.h>
#include <string.h>

enum { POOL = 8, ITEMS = 4, WORDS = FERNSPONGE_ITEM_WORDS * ITEMS, TEXT = 80 };

static uint8_t pool[POOL];
static uint32_t words[WORDS];
static uint64_t count, used;

static uint64_t read_sheet(const char *sheet)
{
    return fernsponge_read_sheet((const uint8_t *)sheet, strlen(sheet), pool, POOL, words, WORDS, &count, &used);
}

static void print_refusal(uint64_t refusal)
{
    unsigned number = FERNSPONGE_NUMBER(refusal);
    const char *why = number == 12  ? "this row is bad"
                      : number == 6 ? "more room is needed than was lent"
                      : number == 5 ? "this item is wrapped"
                                    : "malformed, or a key that is too long";
    printf("refused %u, index %llu: %s\n", number, (unsigned long long)FERNSPONGE_INDEX(refusal), why);
}

/* The bytes of a sheet, its line ends shown. */
static void print_text(const uint8_t *text, uint64_t length)
{
    for (uint64_t i = 0; i < length; i++) {
        if (text[i] == '\r') {
            fputs(" CR", stdout);
        } else if (text[i] == '\n') {
            fputs(" LF\n", stdout);
        } else {
            printf("%s%c", i == 0 || text[i - 1] == '\n' ? "  " : "", text[i]);
        }
    }
}

/* What was done, or why it was not; then the pool, and the six words of each item. */
static void print_all(const char *done, uint64_t refusal)
{
    printf("%s: ", done);
    if (refusal != 0) {
        print_refusal(refusal);
    } else {
        printf("%llu items, keys of %llu bytes\n", (unsigned long long)count, (unsigned long long)used);
    }
    printf("  pool");
    for (int i = 0; i < POOL; i++) {
        printf(" %02X", pool[i]);
    }
    printf("\n");
    for (uint64_t i = 0; i < count; i++) {
        const uint32_t *item = words + FERNSPONGE_ITEM_WORDS * i;
        printf("  code %u wrapper %u start (%u, %u) end (%u, %u)\n", (unsigned)item[0], (unsigned)item[1], (unsigned)item[2],
               (unsigned)item[3], (unsigned)item[4], (unsigned)item[5]);
    }
}

static void write_sheet(const char *done, size_t room)
{
    uint8_t text[TEXT];
    uint64_t length = 0;

    uint64_t refusal = fernsponge_write_sheet(pool, POOL, words, FERNSPONGE_ITEM_WORDS * count, text, room, &length);
    printf("%s: ", done);
    if (refusal != 0) {
        print_refusal(refusal);
        return;
    }
    printf("%llu bytes\n", (unsigned long long)length);
    print_text(text, length);
}

int main(void)
{
    memset(pool, 0xEE, POOL);

    print_all("read", read_sheet("Range,01,05\r\n\"Key\",\"0aFF\",\r\nRangeFrom,-,\"\"\r\nRangeFull,,"));
    write_sheet("write", TEXT);
    write_sheet("write into 50 bytes", 50);

    print_all("read Key,03, and Range,01,5", read_sheet("Key,03,\r\nRange,01,5\r\n"));
    print_all("read a key of 9 bytes", read_sheet("Key,010203040506070809,\r\n"));

    words[FERNSPONGE_ITEM_WORDS + 1] = FERNSPONGE_COUNT;
    write_sheet("write with a count in item 1", TEXT);
    return 0;
}
