/* The program `duty_laps` in C: the same input, and the same line for it. Its argument is the name of a loop. */
#include "twin.h"

#include <inttypes.h>
#include <stdio.h>
#include <string.h>

enum { MOST_RULES = 4, MOST_RULE = 1024, BLOCK = 65536, PRIME = 1000000007 };

/* The rules on duty: where the table of each begins, and in which equation it is. */
struct duty {
    const uint16_t *tables[MOST_RULES];
    size_t equations[MOST_RULES], count;
};

/* A loop over a block of n scans: runs all rules, and says how many scans were kept. It checks nothing, and may write over the byte of the output after
   the kept scans. */
typedef size_t duty_loop(struct duty *duty, const uint8_t *scans, size_t n, uint8_t *output, uint8_t *verdicts);

/* The entry of each rule for a code, and whether one of them is dropped. */
static inline uint8_t look_up(const struct duty *d, uint8_t code, uint16_t *entries)
{
    uint8_t dropped = 0;
    for (size_t k = 0; k < d->count; k++) {
        entries[k] = d->tables[k][CODES * d->equations[k] + code];
        dropped |= entries[k] == DROPPED;
    }
    return dropped;
}

/* A jump on whether a rule drops the scan. */
static size_t jump(struct duty *duty, const uint8_t *restrict scans, size_t n, uint8_t *restrict output, uint8_t *restrict verdicts)
{
    struct duty d = *duty;
    size_t kept = 0;
    for (size_t i = 0; i < n; i++) {
        uint16_t entries[MOST_RULES];
        uint8_t code = scans[i], dropped = look_up(&d, code, entries);
        verdicts[i] = dropped;
        if (!dropped) {
            output[kept++] = code;
            for (size_t k = 0; k < d.count; k++)
                d.equations[k] = entries[k];
        }
    }
    *duty = d;
    return kept;
}

/* No jump: every scan is put after the kept ones, and stays there if it is counted. The equations are chosen by a mask, since of a choice between two
   values gcc makes a jump here. */
static size_t choice(struct duty *duty, const uint8_t *restrict scans, size_t n, uint8_t *restrict output, uint8_t *restrict verdicts)
{
    struct duty d = *duty;
    size_t kept = 0;
    for (size_t i = 0; i < n; i++) {
        uint16_t entries[MOST_RULES];
        uint8_t code = scans[i], dropped = look_up(&d, code, entries);
        verdicts[i] = dropped;
        output[kept] = code;
        kept += !dropped;
        for (size_t k = 0; k < d.count; k++)
            d.equations[k] ^= (d.equations[k] ^ entries[k]) & ((size_t)dropped - 1);
    }
    *duty = d;
    return kept;
}

static const struct {
    const char *name;
    duty_loop *loop;
} duty_loops[] = {{"jump", jump}, {"choice", choice}};

static duty_loop *duty_loop_named(const char *name)
{
    for (size_t i = 0; i < sizeof duty_loops / sizeof duty_loops[0]; i++)
        if (strcmp(duty_loops[i].name, name) == 0)
            return duty_loops[i].loop;
    return NULL;
}

/* What standard input asks for. */
struct task {
    size_t rules, laps, len;
    uint8_t rule[MOST_RULE];
};

static size_t three(const uint8_t *bytes)
{
    return (size_t)bytes[0] << 16 | (size_t)bytes[1] << 8 | bytes[2];
}

/* Whether standard input has a whole task. */
static int read_task(struct task *task)
{
    uint8_t head[7];
    if (fread(head, 1, sizeof head, stdin) < sizeof head)
        return 0;
    task->rules = head[0];
    task->laps = three(head + 1);
    task->len = three(head + 4);
    return task->rules <= MOST_RULES && task->len <= MOST_RULE && fread(task->rule, 1, task->len, stdin) == task->len;
}

static void make_scans(uint8_t *scans)
{
    uint32_t x = 1;
    for (size_t i = 0; i < BLOCK; i++) {
        x = (x * 75 + 74) % 65537;
        scans[i] = (uint8_t)x;
    }
}

static uint64_t digest(const uint8_t *bytes, size_t n)
{
    uint64_t sum = 0;
    for (size_t i = 0; i < n; i++)
        sum = (sum * 256 + bytes[i]) % PRIME;
    return sum;
}

/* Fills a table for each rule, 0 or the refusal with its place. */
static uint8_t come_on(const struct task *task, struct duty *duty, size_t *place)
{
    static uint16_t tables[MOST_RULES][PROGRAM_TABLE];
    for (duty->count = 0; duty->count < task->rules; duty->count++) {
        uint8_t refused = twin_fill(task->rule, task->len, tables[duty->count], PROGRAM_TABLE, place);
        if (refused)
            return refused;
        duty->tables[duty->count] = tables[duty->count];
        duty->equations[duty->count] = 0;
    }
    return 0;
}

int main(int argc, char **argv)
{
    static uint8_t scans[BLOCK], output[BLOCK], verdicts[BLOCK];
    static struct task task;
    struct duty duty;
    duty_loop *loop = argc > 1 ? duty_loop_named(argv[1]) : NULL;
    if (!loop) {
        fprintf(stderr, "usage: duty LOOP\n");
        return 2;
    }
    if (!read_task(&task))
        return 0;
    size_t place, kept = 0;
    uint8_t refused = come_on(&task, &duty, &place);
    if (refused) {
        printf("refused %u at %zu\n", refused, place);
        return 0;
    }
    make_scans(scans);
    for (size_t lap = 0; lap < task.laps; lap++)
        kept += loop(&duty, scans, BLOCK, output, verdicts);
    printf("%zu %zu %" PRIu64 "\n", kept, task.laps * BLOCK - kept, digest(verdicts, BLOCK));
    return 0;
}
