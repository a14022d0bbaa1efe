/*
 * One group from C: its most even share, as for stand.job, and what each unit may still be given under a limit, as for
 * press.job. It prints the unit and group lines of press.report.
 */
#include "danivomel.h"

#include <inttypes.h>
#include <stdio.h>

enum { UNITS = 4, TOTAL = 20 };

/* Prints a refusal as a report does. */
static int refused(danivomel_refusal refusal) {
    printf("(refused %" PRIu64 " %" PRIu64 ")\n", refusal.number, refusal.place);
    return 1;
}

int main(void) {
    uint64_t lows[UNITS] = {8, 4, 1, 3};
    uint64_t highs[UNITS] = {10, 7, 5, 4};
    const uint64_t marks[UNITS] = {DANIVOMEL_RUNNING, DANIVOMEL_RUNNING, DANIVOMEL_RUNNING, DANIVOMEL_RUNNING};
    uint64_t plan[UNITS];

    /* The stand level: no limits; lows and highs stay as they are. */
    danivomel_levelled levelled = danivomel_level(lows, UNITS, highs, UNITS, marks, UNITS, TOTAL, plan, UNITS);
    if (levelled.refusal.number != DANIVOMEL_DONE) {
        return refused(levelled.refusal);
    }

    /* The press level: 7 copies off the mean in all is a deviation of 4 * 7; lows and highs are narrowed. */
    danivomel_limits limits = {.deviation = {.any = false, .at_most = 28}, .spread = {.any = true}, .pairs = {.any = true}};
    danivomel_refusal refusal = danivomel_narrow(lows, UNITS, highs, UNITS, marks, UNITS, TOTAL, limits);
    if (refusal.number != DANIVOMEL_DONE) {
        return refused(refusal);
    }

    for (size_t i = 0; i < UNITS; i++) {
        printf("(unit %zu %" PRIu64 " %" PRIu64 ")\n", i + 1, lows[i], highs[i]);
    }
    printf("(group 1 %" PRIu64 " %" PRIu64, levelled.level, levelled.deviation.value);
    printf(" %" PRIu64 " %" PRIu64 " (plan", levelled.spread.value, levelled.pairs.value);
    for (size_t i = 0; i < UNITS; i++) {
        printf(" %" PRIu64, plan[i]);
    }
    printf("))\n");
    return 0;
}
