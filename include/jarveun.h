/* Jarveun for programs in C and C++: the equations of a rule are counted and filled into a table, scans are run through the table, a dropped scan is
   explained by the rule, a model of a phone is judged under it, and two models are matched by a list of pairs. README.md says what the files mean.
   `tools/build` writes target/staticlib/libboundary.a, for x86-64 Linux; it is linked beside the program, and wants nothing but memcpy and
   memset of the C library.

   Every function answers 0, or the number of a refusal. Whatever the bytes are, it ends, and does what is said here.

   From a rule to its table. A table is a list of entries of 16 bits, and its length is counted in entries. Counting needs no table, and filling needs
   256 entries for each row. So count, set these aside, and fill:

       size_t count;
       uint8_t refused = jarveun_count(rule, rule_len, &count);
       if (refused)
           return refused;
       uint16_t *table = (uint16_t *)malloc(256 * count * sizeof *table);
       if (table)
           refused = jarveun_fill(rule, rule_len, table, 256 * count, &count);

   This filling isn't refused, and hands back the same count. jarveun_count_short and jarveun_fill_short go together in the same way. JARVEUN_TABLE
   entries are enough for every rule.

   The page on which a rule is typed shows it as it grows, up to 32 equations. There jarveun_count_preview and jarveun_fill_preview go together: count,
   set these entries aside, and fill. JARVEUN_PREVIEW_TABLE entries are enough for whatever the page shows. What it shows has the same count and the
   same table by jarveun_count and jarveun_fill.

   A run looks at every entry of the table before its first scan. So hand over scans in blocks: a call for a single scan is all check.

   What is handed over
   - A pointer and the length after it: that many bytes, or of a table entries, are there to be read, and where the pointer isn't const, to be
     written.
   - No pointer is null, also where its length is 0. The pointers to size_t and to entries are aligned for them; those to bytes needn't be.
   - What is written to overlaps nothing else of the same call: so a run can't put its output over its scans. What is only read may overlap.
   - While a call runs, nobody else writes to what it was handed, or reads what it writes.
   A buffer that is too short is refused, by 10, 15 or 16, and is no breach of these duties; a length that isn't true is.

   What a call takes
   - No globals, heap, files or locks: calls share nothing, and may run side by side, any number of them on one table that they only read.
   - Stack. At most 200 bytes were seen in use by a run, 20,000 by matching, 67,000 by counting and by filling, for the page too, 70,000 by
     explaining, 260,000 by judging, and 600,000 by counting and filling for the short table, all but the first two on rules with 64 nodes, each
     inside the one before; bench/stack.c measures this.

   The refusals. The first to apply is answered. Each function names those that it looks for, in their order; 1 to 7 go by the records of the rule from
   left to right, 8 comes after them and 9 after 8, on the page 18 in the place of 9, 11 to 14 go by the records of a model from left to right, and 22
   to 24 by the pairs of the list. A place is an offset in bytes from 0, in the rule, or for 11 to 14 in the model, for 17 in the kept scans, and for
   22 to 24 in the list of pairs. Where none is named below, it is that of the first byte of the record or the pair.
    1  the rule ends before its formula is whole; at its length
    2  a record of the rule with a kind that isn't 1 to 7
    3  a byte after the whole formula, or a pattern once the formula has begun; at that byte
    4  a 33rd pattern or a 65th node
    5  a pattern with a slot over 31
    6  a pattern number or a depth that names nothing
    7  a variable with no necessity between it and its max
    8  opening the formula gives ff at once: no model satisfies the rule; at 0
    9  the rule has over 1,000 equations; at 0
   10  the table has under 256 entries for each row that it is to have; at 0
   11  the model is empty, or ends inside a record; at its length
   12  a record of the model with another kind than is due, or a count of states that isn't 1 to 64
   13  a step with a state that isn't under the count
   14  a 513th step
   15  the output or the verdicts are shorter than the scans; at 0
   16  the count isn't 1 to 1,000, the equation isn't under it, the table has under 256 * count entries, or one of these is neither under the
       count nor 65,535; at 0
   17  the kept scans handed in violate the rule; at the first with which they do
   18  the page's rule has over 32 equations; at 0
   22  the list ends inside a pair; at its length
   23  a pair with a state that its model doesn't have
   24  a 4,097th pair */
#ifndef JARVEUN_H
#define JARVEUN_H

#include <stddef.h>
#include <stdint.h>

#ifdef __cplusplus
extern "C" {
#endif

/* The entries of the longest table, which has 1,000 rows. */
#define JARVEUN_TABLE 256000

/* The entries of the longest table on the page, which has 32. */
#define JARVEUN_PREVIEW_TABLE 8192

/* What explaining hands back for a kept scan. A rule has at most 64 nodes, numbered from 0, so no node has this number. */
#define JARVEUN_KEPT 64

/* Counts the equations of a rule. Refusals: 1 to 9.
   0: *value is their count, 1 to 1,000.
   Refused: *value is the place. *value is never read, and nothing else is written. */
uint8_t jarveun_count(const uint8_t *rule, size_t rule_len, size_t *value);

/* Fills a table with a row for each equation of a rule. The table has at least 256 * count entries, by the count of jarveun_count. Refusals: 1 to 9,
   then 10.
   0: *value is the count. Row k, the 256 entries of the table from 256 * k on, has one for each code: the next equation, or 65,535 where the code
   is dropped. The entries after the last row are as they were.
   Refused: *value is the place, and the table is as it was. *value is never read. */
uint8_t jarveun_fill(const uint8_t *rule, size_t rule_len, uint16_t *table, size_t table_len, size_t *value);

/* Counts the equations of a rule as the page shows it. Refusals: 1 to 8, then 18.
   0: *value is their count, 1 to 32, which jarveun_count hands back too.
   Refused: *value is the place. *value is never read, and nothing else is written. */
uint8_t jarveun_count_preview(const uint8_t *rule, size_t rule_len, size_t *value);

/* Fills a table with a row for each of these equations. The table has at least 256 * count entries, by the count of jarveun_count_preview.
   Refusals: 1 to 8, then 18, then 10.
   0: *value is the count, and the table is as jarveun_fill leaves it.
   Refused: *value is the place, and the table is as it was. *value is never read. */
uint8_t jarveun_fill_preview(const uint8_t *rule, size_t rule_len, uint16_t *table, size_t table_len, size_t *value);

/* Counts the rows of the shortest table of a rule: equations that drop alike on every list of scans are one. Refusals: 1 to 9, where 9 counts the
   equations before they are merged.
   0: *value is the count of rows, 1 to 1,000, and never over that of jarveun_count.
   Refused: *value is the place. *value is never read, and nothing else is written. */
uint8_t jarveun_count_short(const uint8_t *rule, size_t rule_len, size_t *value);

/* Fills a table with these rows, numbered as a search from row 0 finds them. A run over it keeps and drops what one over the table of jarveun_fill
   does. The table has at least 256 * count entries, by the count of jarveun_count_short. Refusals: 1 to 9 as there, then 10.
   0: *value is the count, and the rows are of the form that jarveun_fill has. The entries after the last row are as they were.
   Refused: *value is the place, and the table is as it was. *value is never read. */
uint8_t jarveun_fill_short(const uint8_t *rule, size_t rule_len, uint16_t *table, size_t table_len, size_t *value);

/* Explains why a scan is dropped after the scans kept so far; any list of them that doesn't violate the rule is taken. Refusals: 1 to 9, then 17.
   0: *value is the number of the lowest ff node that the scan opens, 1 to 63, or JARVEUN_KEPT where the scan is kept. A node's number is how many
   nodes of the rule stand before it; patterns are no nodes.
   Refused: *value is the place. *value is never read, and nothing else is written. */
uint8_t jarveun_explain(const uint8_t *rule, size_t rule_len, const uint8_t *kept, size_t kept_len, uint8_t scan, size_t *value);

/* Judges a model under a rule. The table has at least 256 * count entries, by the count of jarveun_count. Refusals: 1 to 9, then 10, then 11 to 14.
   0: *value is 1 where the model meets the rule, and 0 where it breaks it. The table is as jarveun_fill leaves it.
   Refused: *value is the place, and the table is as it was. *value is never read. */
uint8_t jarveun_judge(const uint8_t *rule, size_t rule_len, const uint8_t *model, size_t model_len, uint16_t *table, size_t table_len, size_t *value);

/* Says whether a list of pairs of states matches two models: whether it has the pair 0, 0, and is a strong bisimulation between them. A pair is two
   bytes, a state of the first model and one of the second; repeats change nothing. Refusals: 11 to 14 of the first model, then 11 to 14 of the second,
   then 22 to 24 of the list, where each pair is looked at for all three before the next.
   0: *value is 1 where the list matches the models, and 0 where it doesn't, and *input is 0.
   Refused: *value is the place, and *input says in which of the three: 1 the first model, 2 the second, 3 the list. *value and *input are never read,
   and nothing else is written. */
uint8_t jarveun_match(const uint8_t *first, size_t first_len, const uint8_t *second, size_t second_len, const uint8_t *pairs, size_t pairs_len,
                      size_t *value, size_t *input);

/* Runs scans through a table with so many equations, as its filling answered. The table has at least 256 * count entries, and no others are looked
   at; the output and the verdicts have each at least as many bytes as there are scans. Refusals: 15, then 16.
   *equation goes in and comes out: the first equation, 0, before the first call, and then what the last call left there.
   0: the kept scans are at the front of the output, *kept of them, and at the front of the verdicts there is a byte for each scan, 0 kept or
   1 dropped, *dropped of them 1. All other bytes of both are as they were.
   Refused: *equation and both buffers are as they were, *kept and *dropped are 0, and the place is 0. *kept and *dropped are never read. */
uint8_t jarveun_run(const uint16_t *table, size_t table_len, size_t count, size_t *equation, const uint8_t *scans, size_t scans_len,
                    uint8_t *output, size_t output_len, uint8_t *verdicts, size_t verdicts_len, size_t *kept, size_t *dropped);

#ifdef __cplusplus
}
#endif

#endif
