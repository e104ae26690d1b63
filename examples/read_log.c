/* Reads a log block by block, and prints a line for each record and the totals. */

#include <stdio.h>
#include <string.h>

#include "castanetash.h"

static uint32_t table[CASTANETASH_TABLE_CELLS];
static uint64_t totals[CASTANETASH_TOTALS_CELLS];
static uint8_t log_bytes[1 << 16];
static uint8_t text[1 << 13];

/* Whether an answer is a refusal, which is told. */
static int is_refused(uint64_t answer)
{
    if (CASTANETASH_REFUSAL(answer) == 0)
        return 0;
    fprintf(stderr, "refusal %u, place %u\n", (unsigned)CASTANETASH_REFUSAL(answer),
            (unsigned)CASTANETASH_PLACE(answer));
    return 1;
}

/* Prints the lines of the whole records among the first bytes of the log, and moves the rest to their start. Returns
 * whether it was done; held is how many bytes there are, then how many are left. */
static int print_records(size_t *held)
{
    size_t taken = 0;

    while (*held - taken >= CASTANETASH_RECORD) {
        uint64_t before = totals[CASTANETASH_TOTALS_RECORDS];
        uint64_t answer = castanetash_read_block(table, CASTANETASH_TABLE_CELLS, totals, CASTANETASH_TOTALS_CELLS,
                                                 log_bytes + taken, *held - taken, text, sizeof text);
        if (is_refused(answer))
            return 0;
        fwrite(text, 1, CASTANETASH_WRITTEN(answer), stdout);
        taken += (size_t)(totals[CASTANETASH_TOTALS_RECORDS] - before) * CASTANETASH_RECORD;
    }
    *held -= taken;
    memmove(log_bytes, log_bytes + taken, *held);
    return 1;
}

int main(int argc, char **argv)
{
    size_t held = 0, count;
    FILE *file;

    if (argc != 2) {
        fprintf(stderr, "usage: read_log FILE\n");
        return 1;
    }
    file = fopen(argv[1], "rb");
    if (file == NULL) {
        perror(argv[1]);
        return 1;
    }
    if (is_refused(castanetash_empty(table, CASTANETASH_TABLE_CELLS)))
        return 1;
    while ((count = fread(log_bytes + held, 1, sizeof log_bytes - held, file)) > 0) {
        held += count;
        if (!print_records(&held))
            return 1;
    }
    if (ferror(file)) {
        perror(argv[1]);
        return 1;
    }
    fclose(file);

    if (held > 0) { /* a last piece, too short for a record */
        totals[CASTANETASH_TOTALS_RECORDS]++;
        totals[CASTANETASH_TOTALS_REFUSED]++;
        printf("%llu %u\n", (unsigned long long)totals[CASTANETASH_TOTALS_RECORDS],
               (unsigned)CASTANETASH_REFUSED_LOG_RECORD);
    }
    printf("total %llu refused %llu\n", (unsigned long long)totals[CASTANETASH_TOTALS_RECORDS],
           (unsigned long long)totals[CASTANETASH_TOTALS_REFUSED]);
    if (fflush(stdout) != 0 || ferror(stdout)) {
        perror("standard output");
        return 1;
    }
    return 0;
}
