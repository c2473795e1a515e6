/* Calls nobyaluk_run or nobyaluk_fill for all records of a file, once for each line `run` or `fill` of standard input. Prints the seconds of
 * processor time and the sum of all totals. Before the records the file has 64 kinds of laws and 192 numbers. Each record has its own memory, as in
 * Python: in one block the processor would read the next record ahead. */
#include "../bindings/c/nobyaluk.h"
#include <stdio.h>
#include <stdlib.h>
#include <string.h>
#include <time.h>

enum { MOST_RECORDS = 4096 };

static uint32_t outflows[NOBYALUK_MOST_OUTFLOWS];
static uint8_t *records[MOST_RECORDS];
static size_t sizes[MOST_RECORDS];
static uint8_t kinds[NOBYALUK_CELLS];
static double numbers[3 * NOBYALUK_CELLS];

static double now(void) {
    struct timespec t;
    clock_gettime(CLOCK_PROCESS_CPUTIME_ID, &t);
    return t.tv_sec + t.tv_nsec / 1e9;
}

/* Reads the next record of a file: 1, or 0 at its end. */
static int next_record(FILE *file, uint8_t **record, size_t *size) {
    uint8_t head[4];
    if (fread(head, 1, sizeof head, file) != sizeof head) return 0;
    size_t rest = (size_t)head[0] << 24 | head[1] << 16 | head[2] << 8 | head[3];
    *size = sizeof head + rest;
    *record = malloc(*size);
    if (!*record) return 0;
    memcpy(*record, head, sizeof head);
    return fread(*record + sizeof head, 1, rest, file) == rest;
}

/* A record's total, run or filled. */
static uint64_t total(int i, int filled) {
    if (filled) return nobyaluk_fill(records[i], sizes[i], kinds, NOBYALUK_CELLS, numbers, 3 * NOBYALUK_CELLS, NULL, 0, outflows, NOBYALUK_MOST_OUTFLOWS).total;
    return nobyaluk_run(records[i], sizes[i], NULL, 0, outflows, NOBYALUK_MOST_OUTFLOWS).total;
}

int main(int count, char **words) {
    char line[16];
    int all = 0;
    FILE *file = count == 2 ? fopen(words[1], "rb") : NULL;
    if (!file || fread(kinds, 1, sizeof kinds, file) != sizeof kinds || fread(numbers, 1, sizeof numbers, file) != sizeof numbers) return 1;
    while (all < MOST_RECORDS && next_record(file, &records[all], &sizes[all])) all++;
    while (fgets(line, sizeof line, stdin)) {
        double start = now();
        uint64_t sum = 0;
        for (int i = 0; i < all; i++) sum += total(i, line[0] == 'f');
        printf("%.9f %llu\n", now() - start, (unsigned long long)sum);
        fflush(stdout);
    }
    return 0;
}
