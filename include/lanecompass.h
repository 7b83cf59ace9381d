/* Lanecompass: a checker for forwarding tables whose answers are proved.
 *
 * The library is target/staticlib/libdesk.a, for Linux on x86-64-v2 (`./lanecompass library` proves it and writes it). It keeps
 * nothing between calls, allocates nothing and calls nothing outside itself but C's memset. Calls may run at the same
 * time, on one file too, if no list is lent to two of them.
 *
 * Every call takes a network file as bytes. It is a row of records, each a kind byte (here in hexadecimal) and a body,
 * with numbers big-endian:
 *
 *     01           width 1 byte, node count 1       first, and once
 *     02           node number 1                    begins the table of the next node, from 0; it may have no rule
 *     03           mask 4, value 4, next node 1     a rule of that table: forward
 *     04, 05       mask 4, value 4                  drop, deliver
 *     13, 14, 15   as 03, 04, 05                    a one of the mask is a free bit; in 03 to 05, a bit that must match
 *     7F           nothing                          the end, after the last node's table
 *
 * A header is a number below 2^width. Mask and value have no one above the width, and the value none at a free bit. The
 * first rule that a header matches at a node acts on it; where it matches none, it is dropped. It goes round where its
 * forward rules lead from some node back to that node.
 *
 * Every call gives back a number: 0 when it has an answer, else why it has none. The figures of the answer are written to
 * `out`, which has room for LANECOMPASS_FIGURES numbers or more. Each call writes all of the first LANECOMPASS_FIGURES
 * entries, those it has no figure for with 0, and never one past them.
 *
 * What a call returns, and out[0] then:
 *
 *     0   the call has its answer                                      (see each call)
 *     1   a kind byte that no record has                               place of the kind byte
 *     2   a record out of place: 01 missing first or repeated, a
 *         rule before a table, 02 after N tables, 7F before them       place of its kind byte
 *     3   the file ends inside a record                                place of its kind byte
 *         or where a record should start                               length of the file
 *     4   the width is not 1 to 32                                     0
 *     5   the node count N is not 1 to 64                              0
 *     6   a table's number is not the next                             place of its kind byte
 *     7   a rule forwards to a node that is not there                  place of its kind byte
 *     8   a mask or value has a one above the width                    place of its kind byte
 *     9   a value has a one at a free bit                              place of its kind byte
 *    10   a 257th rule                                                 place of its kind byte
 *    11   a byte after the end record                                  place of that byte
 *    12   more than 512 classes (judge)                                0
 *    13   one of the lent lists is too short (judge)                   0
 *    14   the header has a one above the width (walk)                  0
 *    15   the start node is not there (walk)                           0
 *    16   after as many hops as nodes no end was reached and no
 *         node was met twice (walk; proved never to be given)          0
 *   255   `out` has fewer than LANECOMPASS_FIGURES entries             (nothing is written anywhere)
 *
 * With a refusal, 1 to 16, out[1] to out[5] are 0. Places count bytes of the file from 0. Where more than one number fits,
 * 255 comes first, then 13, then the file's own, 1 to 11, then 12, or 14 before 15. Of the file's own the first faulty
 * record's is given; docs/REFUSALS.md has the order within a record.
 *
 * No pointer may be null, even beside a length of 0. A length counts entries, not bytes. No list may overlap another list
 * or the file.
 */
#ifndef LANECOMPASS_H
#define LANECOMPASS_H

#include <stddef.h>
#include <stdint.h>

#ifdef __cplusplus
extern "C" {
#endif

enum {
    LANECOMPASS_FIGURES = 6,    /* entries of `out` */
    LANECOMPASS_CLASSES = 1024, /* entries of each of judge's three lists */
    LANECOMPASS_CYCLE = 64      /* entries of judge's cycle */
};

/* Reads the file. Returns 0, 1 to 11, or 255.
 *
 * After 0: out[0] the width, out[1] the node count, out[2] the rule count, out[3] to out[5] 0. */
uint8_t lanecompass_read(const uint8_t *file, size_t file_len, uint64_t *out, size_t out_len);

/* Judges the file: its header classes (headers that match the same rules' masks and values are in one), and whether a
 * header goes round. Returns 0, 1 to 13, or 255.
 *
 * Lend three lists of LANECOMPASS_CLASSES entries or more and a cycle of LANECOMPASS_CYCLE entries or more.
 *
 * After 0: out[0] the width, out[1] the node count, out[2] the rule count, out[3] the class count, out[4] the verdict,
 * 0 free and 1 loop, and out[5] the least header that goes round, 0 when free. cares[i], values[i] and sizes[i] are class
 * i's care mask, value and number of headers, ordered by care mask, then value; from the class count to 1,023 they are 0.
 * A one of a care mask is a bit that must match. A header's class is the last i below the class count for which
 * (header & cares[i]) == values[i] (`home_last` in classes/proofs/Demand3). cycle begins with the nodes of the least
 * header's cycle, from the lowest numbered node on any cycle of it and each node once; the rest of the first 64 entries are
 * 255, and all 64 when free.
 * After 12: the first 1,024 entries of the three lists are 0, and the first 64 of cycle 255.
 * After any other number: the four lists are as they were.
 * Entries past 1,024, and past 64 in cycle, never change. */
uint8_t lanecompass_judge(const uint8_t *file, size_t file_len,
                          uint32_t *cares, size_t cares_len,
                          uint32_t *values, size_t values_len,
                          uint64_t *sizes, size_t sizes_len,
                          uint8_t *cycle, size_t cycle_len,
                          uint64_t *out, size_t out_len);

/* Follows one header from one node. Returns 0, 1 to 11, 14, 15, or 255.
 *
 * After 0: out[0] the outcome, 0 delivered, 1 dropped and 2 circling, out[1] the node where it ended, or the first that it
 * entered a second time (it has entered the start once), out[2] the hops up to there, out[3] to out[5] 0. */
uint8_t lanecompass_walk(const uint8_t *file, size_t file_len, uint64_t header, uint8_t start,
                         uint64_t *out, size_t out_len);

#ifdef __cplusplus
}
#endif

#endif
