/* A program in C over the planner's archive: known shares, ranges and jobs, and the layout of what crosses. */
#include "danivomel.h"

#include <stdio.h>
#include <string.h>

/* Prints what is not as it should be, and says so. */
static int same(const char *what, uint64_t found, uint64_t expected) {
    if (found == expected) {
        return 0;
    }
    printf("c: %s is %llu, not %llu\n", what, (unsigned long long)found, (unsigned long long)expected);
    return 1;
}

/* [8,10] [4,7] [1,5] [3,4] with total 20 gives 8 4 4 4, deviation 24, spread 48, pairs 12. */
static int known_share(void) {
    const uint64_t lows[4] = {8, 4, 1, 3};
    const uint64_t highs[4] = {10, 7, 5, 4};
    const uint64_t marks[4] = {0, 0, 0, 0};
    const uint64_t shares[5] = {8, 4, 4, 4, 99};
    uint64_t plan[5] = {0, 0, 0, 0, 99};
    danivomel_levelled found = danivomel_level(lows, 4, highs, 4, marks, 4, 20, plan, 5);
    int faults = same("refusal", found.refusal.number, DANIVOMEL_DONE) + same("place", found.refusal.place, 0);
    faults += same("level", found.level, 4);
    faults += same("deviation", found.deviation.value, 24) + same("spread", found.spread.value, 48);
    faults += same("pairs", found.pairs.value, 12);
    for (int i = 0; i < 5; i++) {
        faults += same("share", plan[i], shares[i]);
    }
    found = danivomel_level(lows, 4, highs, 4, marks, 4, 27, plan, 5);
    faults += same("refusal", found.refusal.number, DANIVOMEL_TOTAL_OUT_OF_REACH);
    faults += same("pairs after a refusal", found.pairs.value, 0);
    return faults + same("plan after a refusal", plan[0], 8);
}

/* [1,3] [2,6] [3,9] with total 10 gives 3 3 4: the copy left over goes to the member with the most headroom. */
static int known_headroom(void) {
    const uint64_t lows[3] = {1, 2, 3};
    const uint64_t highs[3] = {3, 6, 9};
    const uint64_t marks[3] = {0, 0, 0};
    const uint64_t shares[3] = {3, 3, 4};
    uint64_t plan[3] = {0, 0, 0};
    danivomel_levelled found = danivomel_level(lows, 3, highs, 3, marks, 3, 10, plan, 3);
    int faults = same("refusal", found.refusal.number, DANIVOMEL_DONE) + same("level", found.level, 3);
    faults += same("deviation", found.deviation.value, 4) + same("spread", found.spread.value, 2);
    faults += same("pairs", found.pairs.value, 2);
    for (int i = 0; i < 3; i++) {
        faults += same("share", plan[i], shares[i]);
    }
    return faults;
}

/* The lows and highs of four members. */
static int same_ranges(const uint64_t *lows, const uint64_t *highs, const uint64_t *left) {
    int faults = 0;
    for (int i = 0; i < 4; i++) {
        faults += same("low", lows[i], left[i]) + same("high", highs[i], left[4 + i]);
    }
    return faults;
}

/* The same group under deviation limit 28 leaves [8,8] [4,5] [3,5] [3,4]. */
static int known_ranges(void) {
    uint64_t lows[4] = {8, 4, 1, 3};
    uint64_t highs[4] = {10, 7, 5, 4};
    const uint64_t marks[4] = {0, 0, 0, 0};
    const uint64_t left[8] = {8, 4, 3, 3, 8, 5, 5, 4};
    danivomel_limits limits = {.deviation = {.any = false, .at_most = 28}, .spread = {.any = true}, .pairs = {.any = true}};
    danivomel_refusal found = danivomel_narrow(lows, 4, highs, 4, marks, 4, 20, limits);
    int faults = same("refusal", found.number, DANIVOMEL_DONE) + same("place", found.place, 0);
    faults += same_ranges(lows, highs, left);
    limits.deviation.at_most = 23;
    found = danivomel_narrow(lows, 4, highs, 4, marks, 4, 20, limits);
    return faults + same("refusal", found.number, DANIVOMEL_NONE_WITHIN_LIMITS);
}

/* A refusal's number and place. */
static int refused_at(danivomel_refusal found, uint64_t number, uint64_t place) {
    return same("refusal", found.number, number) + same("place", found.place, place);
}

/* The same group under pairs limits: 16 leaves [8,8] [4,5] [3,5] [3,4], 15 leaves 8 4 4 4 alone, which 11 refuses. */
static int known_pairs(void) {
    uint64_t lows[4] = {8, 4, 1, 3};
    uint64_t highs[4] = {10, 7, 5, 4};
    const uint64_t marks[4] = {0, 0, 0, 0};
    const uint64_t left[8] = {8, 4, 3, 3, 8, 5, 5, 4};
    const uint64_t only[8] = {8, 4, 4, 4, 8, 4, 4, 4};
    danivomel_limits limits = {.deviation = {.any = true}, .spread = {.any = true}, .pairs = {.any = false, .at_most = 16}};
    int faults = refused_at(danivomel_narrow(lows, 4, highs, 4, marks, 4, 20, limits), DANIVOMEL_DONE, 0);
    faults += same_ranges(lows, highs, left);
    limits.pairs.at_most = 11;
    faults += refused_at(danivomel_narrow(lows, 4, highs, 4, marks, 4, 20, limits), DANIVOMEL_NONE_WITHIN_LIMITS, 0);
    limits.pairs.at_most = 100000000001;
    faults += refused_at(danivomel_narrow(lows, 4, highs, 4, marks, 4, 20, limits), DANIVOMEL_BEYOND_RANGE, 0);
    limits.pairs.at_most = 15;
    faults += refused_at(danivomel_narrow(lows, 4, highs, 4, marks, 4, 20, limits), DANIVOMEL_DONE, 0);
    return faults + same_ranges(lows, highs, only);
}

/* The same group with a shut member at its second place gives the same figures, and 0 for that member. */
static int shut_share(void) {
    const uint64_t lows[5] = {8, 0, 4, 1, 3};
    const uint64_t highs[5] = {10, 0, 7, 5, 4};
    const uint64_t marks[5] = {DANIVOMEL_RUNNING, DANIVOMEL_SHUT, 0, 0, 0};
    const uint64_t shares[5] = {8, 0, 4, 4, 4};
    uint64_t plan[5];
    danivomel_levelled found = danivomel_level(lows, 5, highs, 5, marks, 5, 20, plan, 5);
    int faults = refused_at(found.refusal, DANIVOMEL_DONE, 0) + same("level", found.level, 4);
    faults += same("deviation", found.deviation.value, 24) + same("spread", found.spread.value, 48);
    faults += same("pairs", found.pairs.value, 12);
    for (int i = 0; i < 5; i++) {
        faults += same("share", plan[i], shares[i]);
    }
    return faults;
}

/* And it is narrowed as without it; then every refusal for the marks. */
static int shut_ranges(void) {
    uint64_t lows[5] = {8, 0, 4, 1, 3};
    uint64_t highs[5] = {10, 0, 7, 5, 4};
    uint64_t marks[6] = {0, 1, 0, 0, 0, 0};
    const uint64_t left[10] = {8, 0, 4, 3, 3, 8, 0, 5, 5, 4};
    danivomel_limits limits = {.deviation = {.any = false, .at_most = 28}, .spread = {.any = true}, .pairs = {.any = true}};
    int faults = refused_at(danivomel_narrow(lows, 5, highs, 5, marks, 5, 20, limits), DANIVOMEL_DONE, 0);
    for (int i = 0; i < 5; i++) {
        faults += same("low", lows[i], left[i]) + same("high", highs[i], left[5 + i]);
    }
    faults += refused_at(danivomel_narrow(lows, 5, highs, 5, marks, 4, 20, limits), DANIVOMEL_BAD_LISTS, 0);
    faults += refused_at(danivomel_narrow(lows, 5, highs, 5, marks, 6, 20, limits), DANIVOMEL_BAD_LISTS, 0);
    marks[2] = 1;
    faults += refused_at(danivomel_narrow(lows, 5, highs, 5, marks, 5, 20, limits), DANIVOMEL_LOW_ABOVE_HIGH, 3);
    marks[3] = 2;
    return faults + refused_at(danivomel_narrow(lows, 5, highs, 5, marks, 5, 20, limits), DANIVOMEL_BEYOND_RANGE, 4);
}

/* The table's entries. */
static int same_table(const danivomel_range *found, const danivomel_range *expected, int count) {
    int faults = 0;
    for (int i = 0; i < count; i++) {
        faults += same("low", found[i].low, expected[i].low) + same("high", found[i].high, expected[i].high);
    }
    return faults;
}

/* The specification's worked job, and the same with the ranges that settling leaves. */
#define WORKED_GROUPS "(group 10 (dev 4) (spread any) (of 1 2))\n(group 8 (dev any) (spread 4) (of 2 3))\n"
static const char *const text = "(unit 0 10)\n(unit 0 10)\n(unit 0 10)\n" WORKED_GROUPS;
static const char *const text_settled = "(unit 5 6)\n(unit 4 5)\n(unit 3 4)\n" WORKED_GROUPS;

/* The worked job read, settled and reported, with an entry past the units. */
static int known_job(void) {
    static uint8_t buffer[65536];
    const char *report = "(settled 3)\n(unit 1 5 6)\n(unit 2 4 5)\n(unit 3 3 4)\n"
                         "(group 1 5 0 0 0 (plan 5 5))\n(group 2 4 0 0 0 (plan 4 4))\n";
    const danivomel_range spare = {99, 98};
    const danivomel_range read[4] = {{0, 10}, {0, 10}, {0, 10}, {99, 98}};
    const danivomel_range settled[4] = {{5, 6}, {4, 5}, {3, 4}, {99, 98}};
    danivomel_range table[4] = {spare, spare, spare, spare};
    uint64_t scratch[24];
    const uint8_t *job = (const uint8_t *)text;
    size_t length = strlen(text);
    int faults = same("short table", danivomel_read(job, length, table, 2).refusal.number, DANIVOMEL_BAD_LISTS);
    faults += same("low after a refusal", table[0].low, 99) + same("high after a refusal", table[0].high, 98);
    danivomel_counts counts = danivomel_read(job, length, table, 4);
    faults += same("units", counts.units, 3) + same("groups", counts.groups, 2) + same_table(table, read, 4);
    faults += same("passes", danivomel_settle(job, length, table, 4, scratch, 24).passes, 3);
    faults += same_table(table, settled, 4);
    memcpy(table, read, sizeof table);
    danivomel_reported written = danivomel_report(job, length, table, 4, scratch, 24, buffer, sizeof buffer);
    faults += same("refusal", written.refusal.number, DANIVOMEL_DONE) + same_table(table, settled, 4);
    faults += same("passes", written.passes, 3) + same("length", written.length, strlen(report));
    return faults + same("report", memcmp(buffer, report, strlen(report)) == 0, 1);
}

/* A refusal of writing: its number and place, and length 0. */
static int same_refusal(danivomel_written found, uint64_t number, uint64_t place) {
    return refused_at(found.refusal, number, place) + same("length", found.length, 0);
}

/* The worked job written with its settled table, with an entry past the units. */
static int known_text(void) {
    const danivomel_range settled[4] = {{5, 6}, {4, 5}, {3, 4}, {99, 98}};
    danivomel_range table[4];
    uint8_t buffer[200];
    size_t length = strlen(text_settled);
    memcpy(table, settled, sizeof table);
    memset(buffer, 0xa5, sizeof buffer);
    danivomel_written found = danivomel_write((const uint8_t *)text, strlen(text), table, 4, buffer, length);
    int faults = same("refusal", found.refusal.number, DANIVOMEL_DONE) + same("place", found.refusal.place, 0);
    faults += same("length", found.length, length) + same_table(table, settled, 4);
    faults += same("text", memcmp(buffer, text_settled, length) == 0, 1);
    return faults + same("byte past the text", buffer[length], 0xa5);
}

/* Every kind of refusal of writing that job, and the buffer after them. */
static int refused_texts(void) {
    danivomel_range table[3] = {{5, 6}, {4, 5}, {3, 4}};
    uint8_t buffer[200];
    const uint8_t *job = (const uint8_t *)text;
    size_t length = strlen(text);
    memset(buffer, 0xa5, sizeof buffer);
    int faults = same_refusal(danivomel_write(job, length - 1, table, 3, buffer, 200), DANIVOMEL_LINE_NOT_ENDED, 5);
    faults += same_refusal(danivomel_write(job, 0, table, 3, buffer, 200), DANIVOMEL_NO_UNITS, 0);
    faults += same_refusal(danivomel_write(job, length, table, 2, buffer, 200), DANIVOMEL_BAD_LISTS, 0);
    faults += same_refusal(danivomel_write(job, length, table, 3, buffer, 8), DANIVOMEL_BAD_LISTS, 0);
    table[1].low = 6;
    faults += same_refusal(danivomel_write(job, length, table, 3, buffer, 200), DANIVOMEL_LOW_ABOVE_HIGH, 2);
    table[2].high = 1000001;
    faults += same_refusal(danivomel_write(job, length, table, 3, buffer, 200), DANIVOMEL_BEYOND_RANGE, 3);
    for (size_t i = 0; i < sizeof buffer; i++) {
        faults += same("byte after the refusals", buffer[i], 0xa5);
    }
    return faults;
}

int main(void) {
    int faults = known_share() + known_headroom() + known_ranges() + known_pairs() + shut_share() + shut_ranges();
    faults += known_job() + known_text() + refused_texts();
    printf("c: %s\n", faults == 0 ? "linked, known answers hold" : "FAILED");
    return faults != 0;
}
