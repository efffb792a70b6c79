/* A rate card, from C: rates for three items, the totals of an invoice with a lane that has no rate, and a card that is refused.
 *
 *     cc -Itarget/include c/card.c target/lib/libfernsponge.a -o target/card && target/card
 */
#include "fernsponge.h"

#include <stdio.h>

/* Lanes of eight bytes, one behind the other. */
static const char pool[] = "DE-AT/01" "DE-AT/09" "DE-FR/05" "DE-PL/01" "DE-PL/09" "DE-AT/04" "DE-FR/06" "DE-PL/07";

enum { ITEMS = 3, WORDS = FERNSPONGE_ITEM_WORDS * ITEMS, LANE = 8, ASKED = 4, POOL = sizeof pool - 1 };

#define LANE_AT(number) LANE * (number), LANE

static const uint32_t items[WORDS] = {
    FERNSPONGE_RANGE_INCLUSIVE, FERNSPONGE_PLAIN, LANE_AT(0), LANE_AT(1),
    FERNSPONGE_KEY, FERNSPONGE_PLAIN, LANE_AT(2), 0, 0,
    FERNSPONGE_RANGE_INCLUSIVE, FERNSPONGE_PLAIN, LANE_AT(3), LANE_AT(4),
};

static const uint32_t asked[2 * ASKED] = {LANE_AT(5), LANE_AT(2), LANE_AT(6), LANE_AT(7)};

static const uint8_t *bytes(uint32_t offset)
{
    return (const uint8_t *)pool + offset;
}

/* A number of which so many are one unit, as a decimal with so many places. */
static void print_decimal(int64_t number, uint64_t unit, int places)
{
    uint64_t size = number < 0 ? 0 - (uint64_t)number : (uint64_t)number;
    printf("%s%llu.%0*llu", number < 0 ? "-" : "", (unsigned long long)(size / unit), places, (unsigned long long)(size % unit));
}

/* A refusal in words. */
static void print_refusal(uint64_t refusal)
{
    unsigned number = FERNSPONGE_NUMBER(refusal);
    const char *what = number == 14 ? "amount" : FERNSPONGE_SIDE(refusal) == 0 ? "item" : "key";
    const char *why = number == 1    ? "malformed, or not one amount for each item"
                      : number == 2  ? "a key longer than 255 bytes, or past the pool"
                      : number == 3  ? "its start stands above its end"
                      : number == 4  ? "it does not start above the end of the one before it"
                      : number == 14 ? "not from -100000000 to 100000000"
                                     : "an invoice has at most 1,000";
    printf("refused %u, %s %llu: %s\n", number, what, (unsigned long long)FERNSPONGE_INDEX(refusal), why);
}

/* The rate of a lane: the item that has it, the amount, and what it comes to alone. */
static uint64_t print_rate(const int64_t amounts[ITEMS], const uint8_t *lane)
{
    uint64_t found[2] = {0, 0};
    uint32_t has = 0;
    int64_t amount = 0;
    uint64_t refusal = fernsponge_find_item(bytes(0), POOL, items, WORDS, lane, LANE, found);
    if (refusal == 0) {
        refusal = fernsponge_rate(bytes(0), POOL, items, WORDS, amounts, ITEMS, lane, LANE, &has, &amount);
    }
    if (refusal != 0) {
        return refusal;
    }
    printf("%.*s ", LANE, (const char *)lane);
    if (has == 0) {
        printf("no rate\n");
        return 0;
    }
    printf("item %llu, ", (unsigned long long)found[1]);
    print_decimal(amount, 10000, 4);
    printf(", alone ");
    print_decimal(fernsponge_to_cents(amount), 100, 2);
    printf("\n");
    return 0;
}

/* The rates of the asked lanes, and their totals. */
static uint64_t print_invoice(const int64_t amounts[ITEMS])
{
    int64_t sum = 0, cents = 0;
    uint64_t without = 0;
    uint64_t refusal = fernsponge_invoice(bytes(0), POOL, items, WORDS, amounts, ITEMS, asked, 2 * ASKED, &sum, &without, &cents);
    for (int i = 0; i < ASKED && refusal == 0; i++) {
        refusal = print_rate(amounts, bytes(asked[2 * i]));
    }
    if (refusal != 0) {
        return refusal;
    }
    printf("sum ");
    print_decimal(sum, 10000, 4);
    printf(", without a rate %llu, to pay ", (unsigned long long)without);
    print_decimal(cents, 100, 2);
    printf("\n");
    return 0;
}

int main(void)
{
    static const int64_t amounts[ITEMS] = {123450, 9000, -12500};
    static const int64_t too_much[ITEMS] = {123450, 1000000000001, -12500};

    uint64_t refusal = print_invoice(amounts);
    if (refusal != 0) {
        print_refusal(refusal);
        return 1;
    }
    refusal = print_invoice(too_much);
    if (refusal == 0) {
        return 1;
    }
    print_refusal(refusal);
    return 0;
}
