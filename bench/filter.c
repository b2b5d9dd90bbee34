/* The program `sift` in C: the rule from rule.bin, scans from standard input to standard output. Its argument is the name of a loop. */
#include "twin.h"

#include <stdio.h>
#include <unistd.h>

enum { BLOCK = 65536, MOST_RULE = 4096 };

static size_t read_rule(uint8_t *rule)
{
    FILE *file = fopen("rule.bin", "rb");
    if (!file)
        return 0;
    size_t n = fread(rule, 1, MOST_RULE, file);
    fclose(file);
    return n;
}

/* Whether all was written. */
static int write_all(const uint8_t *bytes, size_t n)
{
    while (n > 0) {
        ssize_t done = write(STDOUT_FILENO, bytes, n);
        if (done <= 0)
            return 0;
        bytes += done;
        n -= (size_t)done;
    }
    return 1;
}

int main(int argc, char **argv)
{
    static uint8_t rule[MOST_RULE], scans[BLOCK], output[BLOCK], verdicts[BLOCK];
    static uint16_t table[PROGRAM_TABLE];
    run_loop *loop = argc > 1 ? loop_named(argv[1]) : NULL;
    if (!loop) {
        fprintf(stderr, "usage: filter LOOP\n");
        return 2;
    }
    struct run run = {0, 0};
    size_t value;
    uint8_t refused = twin_fill_within(rule, read_rule(rule), PROGRAM_MOST, table, PROGRAM_TABLE, &value);
    if (refused) {
        printf("refused %u at %zu\n", refused, value);
        return 0;
    }
    ssize_t n;
    while ((n = read(STDIN_FILENO, scans, BLOCK)) > 0) {
        loop(table, &run, scans, (size_t)n, output, verdicts);
        if (!write_all(output, run.kept))
            return 1;
    }
    return 0;
}
