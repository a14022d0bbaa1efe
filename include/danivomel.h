/*
 * Danivomel: even shares of a total over the units of a group, by proved code. Link with libplanner.a, or
 * with the shared library libdanivomel.so.
 *
 * danivomel_level gives one group's most even share and its figures (the stand level of the offer), danivomel_narrow
 * the range that each unit of one group may still be given under limits (press), and danivomel_read, danivomel_settle
 * and danivomel_report settle many groups over shared units (works). danivomel_write writes a job with the ranges of a
 * table as a job text, so that a settled job can be handed on.
 *
 * A unit that is off the run can be shut: a line (shut) of a job text in the place of its unit line, or the mark 1 in
 * calls on lists. It keeps its number and its place in groups, its range is 0 to 0 and its share 0, and the figures of
 * a group leave it out: n is the number of running members, and the sums are theirs alone. A unit with the range 0 to 0
 * that is not shut runs, and counts.
 *
 * A list is a pointer and a count, and so is a table, a list of ranges. Every pointer must be valid for its count of
 * items, aligned and not null, also where the count is 0; a list that a call writes must overlap no other list of the
 * call. Nothing else is asked: any counts and any numbers are taken, and what the specification does not allow is
 * refused.
 *
 * A refusal changes no list but the scratch. Past what a call writes, lists keep their values. The calls use no heap
 * and no global state, so they can run on several threads at once.
 */
#ifndef DANIVOMEL_H
#define DANIVOMEL_H

#include <stdbool.h>
#include <stddef.h>
#include <stdint.h>

#ifdef __cplusplus
extern "C" {
#endif

/*
 * The numbers of refusals, and their places. Lines, units and groups are counted from 1. Calls on lists of one group
 * (danivomel_level, danivomel_narrow) refuse 1, 4, 7, 11 and 12 only, and their place is a unit or 0. In calls on a job
 * text 4 and 7 have a line for their place where the text is at fault, and a unit where a range of the table is. Reading
 * and writing (danivomel_read, danivomel_write) refuse 1 to 10 and 13 to 15 only. A line that is not in the form has
 * the first of 13, 14, 15 and 3 that applies to it.
 */
enum {
    DANIVOMEL_DONE = 0,                /* not refused */
    DANIVOMEL_BAD_LISTS = 1,           /* a list, table, scratch or buffer of a wrong length, see each call; place 0 */
    DANIVOMEL_TEXT_TOO_LONG = 2,       /* text over 65,536 bytes; place 0 */
    DANIVOMEL_NOT_IN_FORM = 3,         /* line not in the form, and none of 13 to 15; place the line */
    DANIVOMEL_BEYOND_RANGE = 4,        /* number beyond its range, a mark too; place the line, the unit, or 0 for total
                                          and limits of a group on lists */
    DANIVOMEL_UNIT_AFTER_GROUP = 5,    /* unit line, or (shut), after a group line; place the line */
    DANIVOMEL_TOO_MANY = 6,            /* over 256 units, 64 groups or 4,096 memberships; place the line */
    DANIVOMEL_LOW_ABOVE_HIGH = 7,      /* low above high, or a shut unit's range other than 0 to 0; place the line, or
                                          the unit of a table or of lists; at a shut unit always the unit */
    DANIVOMEL_NO_SUCH_UNIT = 8,        /* unit number 0 or above the count; place the line */
    DANIVOMEL_UNIT_TWICE = 9,          /* a unit twice in a group; place the line */
    DANIVOMEL_NO_UNITS = 10,           /* no unit line and no (shut); place 0 */
    DANIVOMEL_TOTAL_OUT_OF_REACH = 11, /* lows add up to more than the total, or highs to less; place the group of the
                                          text, or 0 for a group on lists */
    DANIVOMEL_NONE_WITHIN_LIMITS = 12, /* shares exist, none within the limits; place as for 11 */
    DANIVOMEL_LINE_NOT_ENDED = 13,     /* last line without byte 10, whatever else ails it; place the line */
    DANIVOMEL_BRACKETS_UNPAIRED = 14,  /* at some byte of the line more closing than opening brackets so far, or not as
                                          many of both at its end; place the line */
    DANIVOMEL_LINE_NOT_NAMED = 15      /* line that does not begin with (unit, (group or (shut and no letter after it;
                                          place the line */
};

/* The marks of a group's members in calls on lists. */
enum {
    DANIVOMEL_RUNNING = 0,
    DANIVOMEL_SHUT = 1 /* off the run: the member's range is 0 to 0, and the figures leave it out */
};

/*
 * A refusal. Number 0 says that the call was not refused, and then the place is 0. The place is 0 for 1, 2 and 10 too,
 * and in calls on lists for 4 of total and limits, 11 and 12; so look at the number.
 */
typedef struct {
    uint64_t number;
    uint64_t place;
} danivomel_refusal;

/*
 * What a refusal means, by its number, in the words of docs/USER-GUIDE.md, which also says what to do; 0 is "not refused".
 * It stands in this header and not in the library, and never gives null.
 */
static inline const char *danivomel_words(uint64_t number) {
    static const char *const words[] = {
        "not refused",
        "a list, table, scratch or buffer of a wrong length",
        "the text is longer than 65,536 bytes",
        "the line is not in the form",
        "a number is beyond its range",
        "a unit line after a group line",
        "too many: the 257th unit, the 65th group, or more than 4,096 memberships",
        "the low is above the high, or a shut unit's range is not 0 to 0",
        "a unit number that is 0 or above the number of units",
        "a unit twice in one group",
        "no unit line at all",
        "the group's total cannot be made: the lows add up to more, or the highs to less",
        "the total can be made, but every way breaks a limit",
        "the last line has no line feed at its end",
        "the brackets of the line do not match",
        "the line does not begin with (unit, (group or (shut",
    };
    return number < sizeof words / sizeof words[0] ? words[number] : "no refusal has this number";
}

/* The sum of |n * share - total| over the n running members; 0 where all are shut. Divided by n it is in copies. */
typedef struct {
    uint64_t value;
} danivomel_deviation;

/* n * (sum of squared shares) - total * total over the n running members; 0 where all are shut. */
typedef struct {
    uint64_t value;
} danivomel_spread;

/*
 * The sum of larger less smaller share over all pairs of running members, each pair once; 0 where all are shut. Divided
 * by n * total, where that is not 0, it is the Gini coefficient of their shares.
 */
typedef struct {
    uint64_t value;
} danivomel_pairs;

/* A limit: any limits nothing, and at_most is then not looked at. */
typedef struct {
    bool any;
    uint64_t at_most;
} danivomel_limit;

/*
 * A group's limits: the deviation's 0 to 100,000,000,000, the spread's 0 to 100,000,000,000,000,000, and that of the
 * pair differences 0 to 100,000,000,000. Set all three: one that an initialiser leaves out is 0, the tightest, and not
 * any.
 */
typedef struct {
    danivomel_limit deviation;
    danivomel_limit spread;
    danivomel_limit pairs;
} danivomel_limits;

/*
 * What levelling answers. On every refusal (1, 4, 7, 11) the level and all three figures are 0; on success each of them
 * can be 0 too. The level is 1,000,000 exactly where every share is its unit's high, and so where all members are shut.
 */
typedef struct {
    danivomel_refusal refusal;
    uint64_t level;
    danivomel_deviation deviation;
    danivomel_spread spread;
    danivomel_pairs pairs;
} danivomel_levelled;

/*
 * Levels a group: the most even shares within lows and highs (0 to 1,000,000) that add up to the total (0 to
 * 256,000,000), written to the plan. No other such shares have a lesser deviation, spread or pair differences. Each
 * member takes the level, or its own low or high where the level is outside; copies left over go one each to the members
 * with the most room up to their high (high - level), among equals to the earlier. A plan may be longer than the group.
 * The marks are a number for each member, DANIVOMEL_RUNNING or DANIVOMEL_SHUT; a shut member's low and high are 0, and
 * so is its share.
 * Refuses, in this order: 1 for lows, highs and marks empty, of unequal length or over 256, or a plan shorter than they
 * are; 4 for low, high and mark of the units in order; 4 for the total, place 0; 7 for the units in order; 11, place 0.
 */
danivomel_levelled danivomel_level(
    const uint64_t *lows, size_t lows_count,
    const uint64_t *highs, size_t highs_count,
    const uint64_t *marks, size_t marks_count,
    uint64_t total,
    uint64_t *plan, size_t plan_count);

/*
 * Narrows a group in place: afterwards lows and highs hold, for each member, exactly the values that some plan takes,
 * where a plan is a choice of shares within the lows and highs at the call that add up to the total and are within
 * all limits. The marks are as for levelling, and are only read; a shut member's range stays 0 to 0.
 * Refuses, in this order: 1 for lows, highs and marks empty, of unequal length or over 256; 4 for low, high and mark of
 * the units in order; 4 for total and limits, place 0; 7 for the units in order; 11; 12, both with place 0.
 */
danivomel_refusal danivomel_narrow(
    uint64_t *lows, size_t lows_count,
    uint64_t *highs, size_t highs_count,
    const uint64_t *marks, size_t marks_count,
    uint64_t total,
    danivomel_limits limits);

/*
 * The range of a unit: an entry of a table. Unit 1 is the table's first entry. A table may have more entries than the
 * job has units, and more than 256: what lies past the units is not looked at and keeps its values.
 */
typedef struct {
    uint64_t low;
    uint64_t high;
} danivomel_range;

/*
 * What reading a job text answers. On every refusal (1 to 10, 13 to 15) both counts are 0. On success units is 1 to
 * 256, and groups is 0 to 64.
 */
typedef struct {
    danivomel_refusal refusal;
    size_t units;
    size_t groups;
} danivomel_counts;

/*
 * Reads a job text into a table: afterwards the table begins with the ranges of the unit lines, 0 to 0 for (shut).
 * Refuses, in this order: 2; the first bad line with the first of 13, 14, 15 and 3 to 9 that applies to it; 10; 1 for a
 * table with fewer entries than the job has units. 256 entries are always enough.
 */
danivomel_counts danivomel_read(
    const uint8_t *text, size_t text_count,
    danivomel_range *table, size_t table_count);

/*
 * What settling answers. The passes, the last one counted, are at least 1 on success and for 11 and 12. They are 0 for
 * all others, which come ahead of the first pass.
 */
typedef struct {
    danivomel_refusal refusal;
    uint64_t passes;
} danivomel_settled;

/*
 * Settles a table under the groups of a job text: opens with the ranges that the table holds, and leaves the greatest
 * ranges inside them in which each value is taken, in each of its unit's groups, by a plan drawn from them. The unit
 * lines are checked and counted, but their ranges are not used: danivomel_read puts those into a table. Which units are
 * shut the text alone says, and the table must have 0 to 0 for each of them.
 * The scratch has at least 8 numbers a unit; what it held changes nothing, and it holds anything afterwards.
 * Refuses, in this order: as reading up to 10; 1 for a table with fewer entries than the job has units, or a scratch
 * with fewer than 8 numbers a unit; 4, then 7 for the ranges of the table (7 where a low is above its high, or a shut
 * unit's range is not 0 to 0), place the first such unit; 11 and 12, place the group, where no such ranges exist.
 */
danivomel_settled danivomel_settle(
    const uint8_t *text, size_t text_count,
    danivomel_range *table, size_t table_count,
    uint64_t *scratch, size_t scratch_count);

/*
 * What reporting answers. On success both passes and length are at least 1. For 11 and 12 the passes are at least 1 and
 * the length is 0. For all other refusals both are 0.
 */
typedef struct {
    danivomel_refusal refusal;
    uint64_t passes;
    size_t length;
} danivomel_reported;

/*
 * Settles as danivomel_settle does, table and scratch included, and writes the report to the start of the buffer, which
 * has at least 65,536 bytes.
 * Refuses, in this order: 1 for a buffer of fewer than 65,536 bytes; then as settling.
 */
danivomel_reported danivomel_report(
    const uint8_t *text, size_t text_count,
    danivomel_range *table, size_t table_count,
    uint64_t *scratch, size_t scratch_count,
    uint8_t *buffer, size_t buffer_count);

/* What writing answers. On every refusal (1 to 10, 13 to 15) the length is 0. On success it is 7 to 28,096. */
typedef struct {
    danivomel_refusal refusal;
    size_t length;
} danivomel_written;

/*
 * Writes a job as a job text to the start of the buffer: the unit lines hold the ranges of the table, those of shut
 * units stay (shut), and the group lines are those of the text. What is written reads as the same job with the table's
 * ranges; a text with the table that its reading filled is written as the same bytes; and a settled job that was written
 * settles in one pass. The table is not changed, and no scratch is needed.
 * Refuses, in this order: as reading, table included; 4, then 7 for the ranges of the table, as settling does; 1 for a
 * buffer with fewer bytes than are to be written. 28,096 bytes are always enough.
 */
danivomel_written danivomel_write(
    const uint8_t *text, size_t text_count,
    const danivomel_range *table, size_t table_count,
    uint8_t *buffer, size_t buffer_count);

#ifdef __cplusplus
}
#endif

#endif
