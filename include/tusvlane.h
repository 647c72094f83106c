/* Tusvlane: which gene partitions must be scored again after a tree
 * rearrangement. For C99 or later, and for C++.
 *
 * What every function keeps to
 *
 * - Each takes any numbers. A pointer comes with a length: so many bytes or
 *   numbers can be read there, and written where it is not a pointer to const.
 *   With length 0 any pointer will do, also a null pointer.
 * - What is lent to be written overlaps nothing else that is lent to the same
 *   call. `restrict` says so below.
 * - Each ends, and gives its answer or a refusal. `refusal` is 0 when the call
 *   is accepted. Otherwise it is one of the numbers below, and every other
 *   number of the answer is 0, but for the place of tusvlane_step and that of
 *   tusvlane_read_newick with 14.
 * - A refused call leaves every lent byte as it was. An accepted one writes
 *   what its description says and nothing else.
 * - Checks run in the order of the refusal numbers 1 to 11, with 16 after 6
 *   and before 7. Of two trees the first is checked wholly, then the second.
 *   tusvlane_read_newick and tusvlane_step tell their own order.
 * - No function keeps memory, calls for any, or has a state of its own, so
 *   that any number of threads may call.
 */
#ifndef TUSVLANE_H
#define TUSVLANE_H

#include <stddef.h>
#include <stdint.h>

#ifdef __cplusplus
#define TUSVLANE_LENT
extern "C" {
#else
#define TUSVLANE_LENT restrict
#endif

/* The refusals. */
enum {
    /* The number of taxa is not from 4 to 64. */
    TUSVLANE_COUNT = 1,
    /* The table is not 2(2n-3) bytes long. */
    TUSVLANE_LENGTH = 2,
    /* A row has an end above 2n-3, or its first end is not the smaller. */
    TUSVLANE_ENDS = 3,
    /* A node is at the wrong number of rows. */
    TUSVLANE_DEGREE = 4,
    /* A node cannot be reached from node 0. */
    TUSVLANE_UNREACHED = 5,
    /* A partition names a taxon n or above; or a list of partitions is empty
     * or longer than 64. */
    TUSVLANE_PARTITION = 6,
    /* The kind of a move is not from 1 to 3, or the last byte of an SPR is
     * not 0. */
    TUSVLANE_KIND = 7,
    /* A row number that the move uses is above 2n-4. */
    TUSVLANE_ROW = 8,
    /* The rows do not fit the move. */
    TUSVLANE_MISFIT = 9,
    /* An SPR or TBR in which no end moves. */
    TUSVLANE_IDLE = 10,
    /* The lent output is too short for the whole answer. */
    TUSVLANE_ROOM = 11,
    /* A field of a job is wrong: its tag, its order or its length, or it is
     * cut short. */
    TUSVLANE_FIELD = 12,
    /* A job is longer than 65,535 bytes. */
    TUSVLANE_LONG = 13,
    /* A text is no tree of n taxa. */
    TUSVLANE_TEXT = 14,
    /* A taxon is in no partition of the list or of the job. Which one is for
     * the caller to find: take the bitwise or of all partitions, of a step the
     * first ones, as many as its state counts; each bit from 0 to n-1 that is
     * 0 in it is a taxon with no data. */
    TUSVLANE_UNSEEN = 16
};

/* A tree of n taxa is a table of 2n-3 rows, two bytes a row: the two end nodes
 * of one edge, the smaller first. Nodes 0 to n-1 are the taxa, n to 2n-3 the
 * inner nodes.
 *
 * A partition is a set of taxa: bit i stands for taxon i. */

/* A move: 1 for NNI, 2 for SPR, 3 for TBR, then three row numbers. The last of
 * an SPR is 0. */
typedef struct {
    uint8_t kind;
    uint8_t first;
    uint8_t second;
    uint8_t third;
} tusvlane_move;

/* A refusal or 0, and one number, which each function below names. */
typedef struct {
    uint64_t refusal;
    uint64_t value;
} tusvlane_answer;

/* A refusal or 0; the distance; and the smallest number on the first tree's
 * list of splits that the second tree's lacks, or 0 when none is lacking. */
typedef struct {
    uint64_t refusal;
    uint64_t distance;
    uint64_t missing;
} tusvlane_comparison;

/* A refusal or 0; and with 14 its place in the text, otherwise 0. */
typedef struct {
    uint64_t refusal;
    size_t place;
} tusvlane_placed;

/* How far a job was read: the offset of the next field, the number of taxa,
 * how many partitions and how many moves were read. */
typedef struct {
    size_t at;
    size_t taxa;
    size_t parts;
    uint64_t moves;
} tusvlane_state;

/* The answer of a step over one field of a job.
 *
 * - A refusal: `refusal` is its number and `place` its place in the job.
 * - The end of the job: `ended` is 1.
 * - Otherwise `next` is the state for the next step, and `wrote` is how many
 *   bytes of lines stand at the start of the output.
 *
 * All that is not named is 0. */
typedef struct {
    uint64_t refusal;
    uint64_t ended;
    size_t place;
    size_t wrote;
    tusvlane_state next;
} tusvlane_stepped;

/* Is the table a tree of n taxa? 0, or a refusal from 1 to 5. */
uint32_t tusvlane_check_tree(size_t n, const uint8_t *table,
                             size_t table_bytes);

/* Writes the splits that the tree induces over the partition, ascending, to
 * the start of `out`. A split is written as the bits of one of its sides, both
 * being cut down to the partition: the smaller; with equal sides, the one that
 * does not hold the lowest taxon of the partition. `value` is how many there
 * are: 2k-3 for k taxa, k being 3 or more; 1 for 2 taxa; else 0.
 * Refusals 1 to 6 and 11. */
tusvlane_answer tusvlane_induced_splits(size_t n, const uint8_t *table,
                                        size_t table_bytes,
                                        uint64_t partition,
                                        uint64_t *TUSVLANE_LENT out,
                                        size_t out_numbers);

/* How far apart two trees of n taxa are over the partition: how many splits
 * are on one of their two lists alone. Refusals 1 to 6. */
tusvlane_comparison tusvlane_compare(size_t n, const uint8_t *first,
                                     size_t first_bytes,
                                     const uint8_t *second,
                                     size_t second_bytes,
                                     uint64_t partition);

/* Makes the move: writes the rows that it changes. 0, or a refusal from 1 to 5
 * and 7 to 10. */
uint32_t tusvlane_apply_move(size_t n, uint8_t *TUSVLANE_LENT table,
                             size_t table_bytes, tusvlane_move move);

/* Writes for each partition on the list, in order, the distance that the move
 * makes over it, to the start of `out`. The tree is not moved. `value` is how
 * many of the distances are 0: these partitions are the same after the move.
 * A partition of fewer than four taxa always is. Nobody scores it, so
 * tusvlane_list_move does not count it as saved.
 * Refusals 1 to 11 and 16. */
tusvlane_answer tusvlane_judge_move(size_t n, const uint8_t *table,
                                    size_t table_bytes,
                                    const uint64_t *partitions,
                                    size_t partition_count,
                                    tusvlane_move move,
                                    uint64_t *TUSVLANE_LENT out,
                                    size_t out_numbers);

/* `value` is the distance that the move makes over one partition. The tree is
 * not moved. Refusals 1 to 10: the partition may lack any taxon. */
tusvlane_answer tusvlane_judge_one(size_t n, const uint8_t *table,
                                   size_t table_bytes, uint64_t partition,
                                   tusvlane_move move);

/* Makes the move, and writes its lines under the move number `number` into
 * `out` from `place` onward. `value` is the place after the lines. The last
 * line says how many partitions are saved: those that are the same and have
 * four or more taxa. The terrace class after it says which share of all
 * partitions is the same.
 * Refusals 1 to 11 and 16; 11 when the lines do not all fit or the place is
 * past the end, and then the tree has not moved either. */
tusvlane_answer tusvlane_list_move(size_t n, uint8_t *TUSVLANE_LENT table,
                                   size_t table_bytes,
                                   const uint64_t *partitions,
                                   size_t partition_count,
                                   tusvlane_move move, uint64_t number,
                                   uint8_t *TUSVLANE_LENT out,
                                   size_t out_bytes, size_t place);

/* Reads a tree of n taxa from its Newick text, and writes its table to the
 * start of `out`, which needs 2(2n-3) bytes. The rest of `out` stays.
 *
 * The text is one group and a semicolon, with no byte after it. A group is an
 * opening parenthesis, its members with commas between them, and a closing
 * parenthesis. A member is a taxon or another group. A taxon is its number in
 * plain decimal without leading zeros, and each of 0 to n-1 stands once. Every
 * group has two members, but the outermost has two or three. There are no
 * blanks, lengths or labels of groups.
 *
 * Inner nodes are numbered from n in the order of their closing parentheses,
 * and row v joins node v to its parent. With two outermost members, the
 * outermost group is no node: one row joins its members, and takes the smaller
 * of their numbers.
 *
 * Refusals in this order; where it is refused, nothing is written:
 * - 1;
 * - 14 when the text is no such tree. `place` is that of the first byte at
 *   which no continuation is a tree, or the text's length if it ends too soon.
 *   Any byte after the semicolon, a line feed too, is such a byte;
 * - 11 when `out` is shorter than 2(2n-3) bytes. */
tusvlane_placed tusvlane_read_newick(size_t n, const uint8_t *text,
                                     size_t text_bytes,
                                     uint8_t *TUSVLANE_LENT out,
                                     size_t out_bytes);

/* The state before the first field of a job. */
tusvlane_state tusvlane_start(void);

/* The step over one field of a job, from the state that the last step gave and
 * on the table and partitions that it left. The first step takes
 * tusvlane_start's state and any bytes and numbers in both. A job that is
 * stepped from its start, with 250 bytes for the table, 64 partitions and 8192
 * bytes of output, never gives 11.
 *
 * The closing line of a listing, `end M` or `refused N at P`, is the caller's
 * to write. M is the number of moves of the state that the last step took.
 *
 * Refusals 1 to 13 and 16. Any state is taken, also one that no job has. In
 * order:
 * - 13 at 0 when the job is longer than 65,535 bytes;
 * - with the state's offset as the place: 1 when its number of taxa is above
 *   64, or below 4 and its offset not 0; 11 when the list is too short for its
 *   partitions, or, its offset being above 4, the table for its taxa; 12 when
 *   its offset is from 1 to 3, or its number of moves above 65,535;
 * - when the offset is the job's length or more: 12 at the job's length where
 *   the state has no partition;
 * - 16 when a taxon is in none of the partitions that are held. It is looked
 *   for where the partitions are over: the offset is above 4, the state has
 *   partitions and no moves, and either the offset is the job's length or
 *   more, and the place is the job's length; or the tag at the offset is not
 *   3, and the place is the offset;
 * - when the offset is the job's length or more: the end of the job;
 * - the field at the offset. At 0 it is n, at 4 the table. Elsewhere it is a
 *   partition where the state has none; otherwise a move, or a partition where
 *   the state has no moves and fewer than 64 partitions. Any other tag is 12.
 *   A move is judged as tusvlane_list_move judges it, on what is held;
 * - 11 at the offset when the table that was read, a partition or the lines do
 *   not fit.
 * After n and after the table the next state has no partitions and no moves.
 */
tusvlane_stepped tusvlane_step(const uint8_t *job, size_t job_bytes,
                               tusvlane_state state,
                               uint8_t *TUSVLANE_LENT table,
                               size_t table_bytes,
                               uint64_t *TUSVLANE_LENT partitions,
                               size_t partition_count,
                               uint8_t *TUSVLANE_LENT out, size_t out_bytes);

#ifdef __cplusplus
}
#endif

#endif
