/*
 * A shut unit from C: the job of off-shut.job, where unit 2 is off the run. A table must have the range 0 to 0 for it;
 * any other range is refused with 7, and the place is the unit. Then the same group by lists, with marks: shut the unit
 * is left out of the figures, running with the range 0 to 0 it counts, and the limit cannot be met.
 */
#include "danivomel.h"

#include <inttypes.h>
#include <stdio.h>
#include <string.h>

enum { UNITS = 4, TOTAL = 90000, SCRATCH = 8 * UNITS };

/* The job text. */
static const char *const job = "(unit 0 40000)\n"
                               "(shut)\n"
                               "(unit 0 40000)\n"
                               "(unit 0 40000)\n"
                               "(group 90000 (dev 4500) (spread any) (of 1 2 3 4))\n";

/* 500 copies off the mean on average, over three running units: 3 * 3 * 500. */
static const danivomel_limits limits = {
    .deviation = {.any = false, .at_most = 4500}, .spread = {.any = true}, .pairs = {.any = true}};

/* Prints a refusal as a report does. */
static int refused(danivomel_refusal refusal) {
    printf("(refused %" PRIu64 " %" PRIu64 ")\n", refusal.number, refusal.place);
    return 1;
}

/* Prints a unit's range as a report does. */
static void print_unit(size_t number, uint64_t low, uint64_t high) {
    printf("(unit %zu %" PRIu64 " %" PRIu64 ")\n", number, low, high);
}

/* Settles the job from the unit lines' ranges but for one range of unit 2, and prints the table that this leaves. */
static int settle(danivomel_range second) {
    danivomel_range table[UNITS];
    uint64_t scratch[SCRATCH];
    const uint8_t *text = (const uint8_t *)job;
    danivomel_counts counts = danivomel_read(text, strlen(job), table, UNITS);
    if (counts.refusal.number != DANIVOMEL_DONE) {
        return refused(counts.refusal);
    }
    table[1] = second;
    danivomel_settled settled = danivomel_settle(text, strlen(job), table, UNITS, scratch, SCRATCH);
    if (settled.refusal.number != DANIVOMEL_DONE) {
        return refused(settled.refusal);
    }
    printf("(settled %" PRIu64 ")\n", settled.passes);
    for (size_t i = 0; i < UNITS; i++) {
        print_unit(i + 1, table[i].low, table[i].high);
    }
    return 0;
}

/* Levels the group by lists, with one mark for unit 2, and prints its line as a report does. */
static int level(uint64_t second) {
    const uint64_t lows[UNITS] = {0, 0, 0, 0};
    const uint64_t highs[UNITS] = {40000, 0, 40000, 40000};
    const uint64_t marks[UNITS] = {DANIVOMEL_RUNNING, second, DANIVOMEL_RUNNING, DANIVOMEL_RUNNING};
    uint64_t plan[UNITS];
    danivomel_levelled levelled = danivomel_level(lows, UNITS, highs, UNITS, marks, UNITS, TOTAL, plan, UNITS);
    if (levelled.refusal.number != DANIVOMEL_DONE) {
        return refused(levelled.refusal);
    }
    printf("(group 1 %" PRIu64 " %" PRIu64, levelled.level, levelled.deviation.value);
    printf(" %" PRIu64 " %" PRIu64 " (plan", levelled.spread.value, levelled.pairs.value);
    for (size_t i = 0; i < UNITS; i++) {
        printf(" %" PRIu64, plan[i]);
    }
    printf("))\n");
    return 0;
}

/* Narrows it likewise, and prints the ranges. */
static int narrow(uint64_t second) {
    uint64_t lows[UNITS] = {0, 0, 0, 0};
    uint64_t highs[UNITS] = {40000, 0, 40000, 40000};
    const uint64_t marks[UNITS] = {DANIVOMEL_RUNNING, second, DANIVOMEL_RUNNING, DANIVOMEL_RUNNING};
    danivomel_refusal refusal = danivomel_narrow(lows, UNITS, highs, UNITS, marks, UNITS, TOTAL, limits);
    if (refusal.number != DANIVOMEL_DONE) {
        return refused(refusal);
    }
    for (size_t i = 0; i < UNITS; i++) {
        print_unit(i + 1, lows[i], highs[i]);
    }
    return 0;
}

int main(void) {
    /* Two of the six calls are to be refused: a range for the shut unit, and the limit where the unit runs. */
    int refusals = settle((danivomel_range){0, 5});
    refusals += settle((danivomel_range){0, 0});
    refusals += level(DANIVOMEL_SHUT);
    refusals += narrow(DANIVOMEL_SHUT);
    refusals += level(DANIVOMEL_RUNNING);
    refusals += narrow(DANIVOMEL_RUNNING);
    return refusals == 2 ? 0 : 1;
}
