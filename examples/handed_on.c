/*
 * The evening's settled job handed on, from C. The evening desk settles a job and writes what is settled as a job text,
 * which is printed here. The day desk has this text alone: it reads it, lowers the high of one unit and settles on, and
 * the ranges that this leaves are printed.
 *
 *     handed_on JOB UNIT HIGH
 */
#include "danivomel.h"

#include <errno.h>
#include <inttypes.h>
#include <stdio.h>
#include <stdlib.h>

enum { MOST_BYTES = 65536, MOST_UNITS = 256, WRITTEN_BYTES = 28096 };

/* Says what is wrong with the call, on standard error. */
static int wrong(const char *what, const char *word) {
    fprintf(stderr, "handed_on: %s '%s'; call it as: handed_on JOB UNIT HIGH\n", what, word);
    return 2;
}

/* A whole number in base ten, or -1. */
static long long number(const char *word) {
    char *end;
    errno = 0;
    long long value = strtoll(word, &end, 10);
    return *word < '0' || *word > '9' || *end != '\0' || errno != 0 ? -1 : value;
}

/* The bytes of a file, at most one more than a job text may have; 0 where it cannot be read. */
static int read_file(const char *path, uint8_t *text, size_t *length) {
    FILE *file = fopen(path, "rb");
    if (file == NULL) {
        return 0;
    }
    *length = fread(text, 1, MOST_BYTES + 1, file);
    int read = !ferror(file);
    fclose(file);
    return read;
}

/* Prints a refusal as a report does. */
static int refused(danivomel_refusal refusal) {
    printf("(refused %" PRIu64 " %" PRIu64 ")\n", refusal.number, refusal.place);
    return 1;
}

/* Settles a table. */
static danivomel_settled settle(const uint8_t *text, size_t length, danivomel_range *table, size_t units) {
    static uint64_t scratch[8 * MOST_UNITS];
    return danivomel_settle(text, length, table, units, scratch, 8 * MOST_UNITS);
}

/* Settles the job over its table, and writes the settled job to the start of the buffer. */
static danivomel_written evening(
    const uint8_t *text, size_t length, danivomel_range *table, size_t units, uint8_t *buffer) {
    danivomel_settled settled = settle(text, length, table, units);
    if (settled.refusal.number != DANIVOMEL_DONE) {
        return (danivomel_written){.refusal = settled.refusal, .length = 0};
    }
    return danivomel_write(text, length, table, units, buffer, WRITTEN_BYTES);
}

/* Reads the job that was handed on, lowers the high of one unit, settles, and prints the ranges as a report does. */
static int day(const uint8_t *text, size_t length, size_t unit, uint64_t high) {
    static danivomel_range table[MOST_UNITS];
    danivomel_counts counts = danivomel_read(text, length, table, MOST_UNITS);
    if (counts.refusal.number != DANIVOMEL_DONE) {
        return refused(counts.refusal);
    }
    if (high < table[unit - 1].high) {
        table[unit - 1].high = high;
    }
    danivomel_settled settled = settle(text, length, table, counts.units);
    if (settled.refusal.number != DANIVOMEL_DONE) {
        return refused(settled.refusal);
    }
    printf("(settled %" PRIu64 ")\n", settled.passes);
    for (size_t i = 0; i < counts.units; i++) {
        printf("(unit %zu %" PRIu64 " %" PRIu64 ")\n", i + 1, table[i].low, table[i].high);
    }
    return 0;
}

int main(int count, char **words) {
    static uint8_t text[MOST_BYTES + 1];
    static uint8_t buffer[WRITTEN_BYTES];
    static danivomel_range table[MOST_UNITS];
    size_t length;
    if (count != 4) {
        return wrong("three words are needed after", words[0]);
    }
    if (!read_file(words[1], text, &length)) {
        return wrong("cannot read a job from", words[1]);
    }
    danivomel_counts counts = danivomel_read(text, length, table, MOST_UNITS);
    if (counts.refusal.number != DANIVOMEL_DONE) {
        return refused(counts.refusal);
    }
    long long unit = number(words[2]);
    if (unit < 1 || (size_t)unit > counts.units) {
        return wrong("the job has no unit", words[2]);
    }
    long long high = number(words[3]);
    if (high < 0) {
        return wrong("no whole number is", words[3]);
    }
    danivomel_written written = evening(text, length, table, counts.units, buffer);
    if (written.refusal.number != DANIVOMEL_DONE) {
        return refused(written.refusal);
    }
    fwrite(buffer, 1, written.length, stdout);
    return day(buffer, written.length, (size_t)unit, (uint64_t)high);
}
