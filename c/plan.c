/* Windows to fetch missing rows again, from C: of the rows 0 to 9 all but 3 and 4 are missing, and a call returns four rows at most.
 *
 *     cc -Itarget/include c/plan.c target/lib/libfernsponge.a -o target/plan && target/plan
 */
#include "fernsponge.h"

#include <stdio.h>

enum { INTERVALS = 1, PROVED = 2, MOST = 4, ROOM = 3 };

int main(void)
{
    static const uint64_t intervals[2 * INTERVALS] = {0, 10};
    static const uint64_t proved[PROVED] = {3, 4};
    uint64_t plan[2 * ROOM] = {0};
    uint64_t windows = 0;
    uint32_t accepted = 0;

    uint64_t refusal = fernsponge_plan_refetch(intervals, 2 * INTERVALS, proved, PROVED, MOST, plan, 2 * ROOM, &windows);
    if (refusal == 0) {
        refusal = fernsponge_check_plan(intervals, 2 * INTERVALS, proved, PROVED, MOST, plan, 2 * windows, &accepted);
    }
    if (refusal != 0) {
        printf("refused %u\n", FERNSPONGE_NUMBER(refusal));
        return 1;
    }
    printf("windows %llu\n", (unsigned long long)windows);
    for (uint64_t i = 0; i < windows; i++) {
        printf("%llu %llu\n", (unsigned long long)plan[2 * i], (unsigned long long)plan[2 * i + 1]);
    }
    printf("accepted %u\n", (unsigned)accepted);
    return 0;
}
