/* Loops over a block of scans, as run_loop says, and one with the checks of a run. */
#include "twin.h"

#include <string.h>

/* A jump on the entry. */
static void jump(const uint16_t *restrict table, struct run *run, const uint8_t *restrict scans, size_t n, uint8_t *restrict output,
                 uint8_t *restrict verdicts)
{
    size_t equation = run->equation, kept = 0;
    for (size_t i = 0; i < n; i++) {
        uint8_t code = scans[i];
        uint16_t entry = table[CODES * equation + code];
        if (entry == DROPPED) {
            verdicts[i] = 1;
        } else {
            verdicts[i] = 0;
            output[kept++] = code;
            equation = entry;
        }
    }
    run->equation = equation;
    run->kept = kept;
}

/* The entry of a code in the row that begins at `from`. By the empty statement gcc adds the code to the table first and the row last, so that the next
   look-up waits for one sum less. */
static inline size_t entry_at(const uint16_t *table, size_t from, uint8_t code)
{
    const uint16_t *column = table + code;
    __asm__("" : "+r"(column));
    return column[from];
}

/* A jump on the entry, going from the beginning of one row to that of the next. */
static void tuned_jump(const uint16_t *restrict table, struct run *run, const uint8_t *restrict scans, size_t n, uint8_t *restrict output,
                       uint8_t *restrict verdicts)
{
    size_t from = CODES * run->equation, kept = 0;
    for (size_t i = 0; i < n; i++) {
        uint8_t code = scans[i];
        size_t entry = entry_at(table, from, code);
        if (entry == DROPPED) {
            verdicts[i] = 1;
        } else {
            verdicts[i] = 0;
            output[kept++] = code;
            from = CODES * entry;
        }
    }
    run->equation = from / CODES;
    run->kept = kept;
}

/* No jump: every scan is put after the kept ones, and stays there if it is counted. */
static void choice(const uint16_t *restrict table, struct run *run, const uint8_t *restrict scans, size_t n, uint8_t *restrict output,
                   uint8_t *restrict verdicts)
{
    size_t equation = run->equation, kept = 0;
    for (size_t i = 0; i < n; i++) {
        uint8_t code = scans[i];
        uint16_t entry = table[CODES * equation + code];
        uint8_t dropped = entry == DROPPED;
        verdicts[i] = dropped;
        output[kept] = code;
        kept += !dropped;
        equation = dropped ? equation : entry;
    }
    run->equation = equation;
    run->kept = kept;
}

/* The same, going from the beginning of one row to that of the next. */
static void tuned_choice(const uint16_t *restrict table, struct run *run, const uint8_t *restrict scans, size_t n, uint8_t *restrict output,
                         uint8_t *restrict verdicts)
{
    size_t from = CODES * run->equation, kept = 0;
    for (size_t i = 0; i < n; i++) {
        uint8_t code = scans[i];
        size_t entry = entry_at(table, from, code);
        uint8_t dropped = entry == DROPPED;
        verdicts[i] = dropped;
        output[kept] = code;
        kept += !dropped;
        from = dropped ? from : CODES * entry;
    }
    run->equation = from / CODES;
    run->kept = kept;
}

const struct named_loop loops[] = {
    {"jump", jump}, {"choice", choice}, {"tuned jump", tuned_jump}, {"tuned choice", tuned_choice},
};

const size_t nloops = sizeof loops / sizeof loops[0];

run_loop *loop_named(const char *name)
{
    for (size_t i = 0; i < nloops; i++)
        if (strcmp(loops[i].name, name) == 0)
            return loops[i].loop;
    return NULL;
}

/* Whether each entry is under the count or the mark for dropped. */
static int in_range(const uint16_t *entries, size_t n, uint16_t count)
{
    uint16_t all = 1;
    for (size_t i = 0; i < n; i++)
        all &= (entries[i] < count) | (entries[i] == DROPPED);
    return all;
}

uint8_t twin_run(const uint16_t *table, size_t table_len, size_t count, size_t *equation, const uint8_t *scans, size_t scans_len, uint8_t *output,
                 size_t output_len, uint8_t *verdicts, size_t verdicts_len, size_t *kept, size_t *dropped)
{
    struct run run = {*equation, 0};
    *kept = *dropped = 0;
    if (output_len < scans_len || verdicts_len < scans_len)
        return 15;
    if (count < 1 || count > MOST_EQUATIONS || run.equation >= count || table_len < CODES * count || !in_range(table, CODES * count, (uint16_t)count))
        return 16;
    jump(table, &run, scans, scans_len, output, verdicts);
    *equation = run.equation;
    *kept = run.kept;
    *dropped = scans_len - run.kept;
    return 0;
}
