/*
 * The evening's change, from C: settles a job, lowers the high of one unit in the table that this leaves, and settles
 * again. The job text stays as it is; the table carries the change.
 *
 *     evening JOB UNIT HIGH
 */
#include "danivomel.h"

#include <errno.h>
#include <stdio.h>
#include <stdlib.h>

enum { MOST_BYTES = 65536, MOST_UNITS = 256 };

/* Says what is wrong with the call, on standard error. */
static int wrong(const char *what, const char *word) {
    fprintf(stderr, "evening: %s '%s'; call it as: evening JOB UNIT HIGH\n", what, word);
    return 2;
}

/* A whole number in base ten, or -1. */
static long long number(const char *word) {
    char *end;
    errno = 0;
    long long value = strtoll(word, &end, 10);
    return *word < '0' || *word > '9' || *end != '\0' || errno != 0 ? -1 : value;
}

/* The bytes of a file, at most one more than a job text may have; 0 where it cannot be read. */
static int read_file(const char *path, uint8_t *text, size_t *length) {
    FILE *file = fopen(path, "rb");
    if (file == NULL) {
        return 0;
    }
    *length = fread(text, 1, MOST_BYTES + 1, file);
    int read = !ferror(file);
    fclose(file);
    return read;
}

/* Prints a refusal as a report does. */
static int refused(danivomel_refusal refusal) {
    printf("(refused %llu %llu)\n", (unsigned long long)refusal.number, (unsigned long long)refusal.place);
    return 1;
}

/* Settles a table and prints its ranges as a report does. */
static int settle(const uint8_t *text, size_t length, danivomel_range *table, size_t units) {
    static uint64_t scratch[8 * MOST_UNITS];
    danivomel_settled settled = danivomel_settle(text, length, table, units, scratch, 8 * MOST_UNITS);
    if (settled.refusal.number != DANIVOMEL_DONE) {
        return refused(settled.refusal);
    }
    printf("(settled %llu)\n", (unsigned long long)settled.passes);
    for (size_t i = 0; i < units; i++) {
        printf("(unit %zu %llu %llu)\n", i + 1, (unsigned long long)table[i].low, (unsigned long long)table[i].high);
    }
    return 0;
}

int main(int count, char **words) {
    static uint8_t text[MOST_BYTES + 1];
    static danivomel_range table[MOST_UNITS];
    size_t length;
    if (count != 4) {
        return wrong("three words are needed after", words[0]);
    }
    if (!read_file(words[1], text, &length)) {
        return wrong("cannot read a job from", words[1]);
    }
    danivomel_counts counts = danivomel_read(text, length, table, MOST_UNITS);
    if (counts.refusal.number != DANIVOMEL_DONE) {
        return refused(counts.refusal);
    }
    long long unit = number(words[2]);
    if (unit < 1 || (size_t)unit > counts.units) {
        return wrong("the job has no unit", words[2]);
    }
    long long high = number(words[3]);
    if (high < 0) {
        return wrong("no whole number is", words[3]);
    }
    if (settle(text, length, table, counts.units) != 0) {
        return 1;
    }
    if ((uint64_t)high < table[unit - 1].high) {
        table[unit - 1].high = (uint64_t)high;
    }
    return settle(text, length, table, counts.units);
}
