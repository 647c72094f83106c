/* An example client of Tusvlane in C.
 *
 * It checks a tree, reads the same tree from its text, judges a move for four
 * partitions, makes the move, and has a wrong move and a wrong text refused.
 * Each line that it prints starts with the number that matters. clients/run-c
 * builds and runs it.
 */
#include <inttypes.h>
#include <stdio.h>
#include <string.h>

#include "tusvlane.h"

enum { TAXA = 6, ROWS = 2 * TAXA - 3, TABLE_BYTES = 2 * ROWS, PARTITIONS = 4 };

/* The tree: taxa 0 to 5, inner nodes 6 to 9, a row for each edge. */
static const uint8_t tree_s[TABLE_BYTES] = {
    0, 6, 1, 6, 6, 7, 2, 7, 7, 8, 3, 8, 8, 9, 4, 9, 5, 9,
};

/* The same tree as Newick text. */
static const char text_s[] = "((((0,1),2),3),4,5);";

/* The text with taxon 4 named twice. */
static const char wrong_text[] = "((((0,1),2),3),4,4);";

/* Bit i stands for taxon i: all taxa; 0, 2, 3, 4; 0, 1, 4, 5; none. */
static const uint64_t partitions[PARTITIONS] = {0x3f, 0x1d, 0x33, 0x00};

/* NNI of row 4 that exchanges rows 3 and 5. */
static const tusvlane_move good = {1, 4, 3, 5};

/* The same with row 3 named twice. An NNI wants a row at each end of row 4. */
static const tusvlane_move wrong = {1, 4, 3, 3};

/* Prints what a call answered: 0 when it is accepted, else its refusal. */
static void print_answer(uint64_t refusal, const char *what)
{
    printf("%" PRIu64 " %s: %s\n", refusal,
           refusal == 0 ? "accepted" : "refused", what);
}

/* Prints the distance over each partition. One with 0 keeps its score; any
 * other must be scored again. */
static void print_distances(const uint64_t *distances)
{
    for (size_t i = 0; i < PARTITIONS; i++)
        printf("%" PRIu64 " %s: partition %zu\n", distances[i],
               distances[i] == 0 ? "same" : "changed", i + 1);
}

/* Prints how many rows differ between two tables. */
static void print_rows(const uint8_t *before, const uint8_t *after)
{
    size_t differ = 0;
    for (size_t row = 0; row < ROWS; row++)
        if (memcmp(before + 2 * row, after + 2 * row, 2) != 0)
            differ++;
    printf("%zu rows differ\n", differ);
}

/* Asks how far a tree is from tree S over all taxa. */
static void compare(const uint8_t *table)
{
    tusvlane_comparison answer = tusvlane_compare(
        TAXA, table, TABLE_BYTES, tree_s, TABLE_BYTES, partitions[0]);
    print_answer(answer.refusal, "compared with tree S");
    if (answer.refusal == 0)
        printf("%" PRIu64 " splits differ\n", answer.distance);
}

/* Reads a tree from its text and compares it with tree S. For a text that is
 * no tree, prints the place where it goes wrong. */
static void read_text(const char *text, const char *what)
{
    uint8_t table[TABLE_BYTES];
    tusvlane_placed answer =
        tusvlane_read_newick(TAXA, (const uint8_t *)text, strlen(text), table,
                             TABLE_BYTES);
    print_answer(answer.refusal, what);
    if (answer.refusal == 0)
        compare(table);
    else if (answer.refusal == TUSVLANE_TEXT)
        printf("%zu is the place\n", answer.place);
}

/* Asks which partitions the move changes. The tree is not moved. The distances
 * hold an answer only when the call is accepted. */
static void judge(const uint8_t *table)
{
    uint64_t distances[PARTITIONS];
    tusvlane_answer answer =
        tusvlane_judge_move(TAXA, table, TABLE_BYTES, partitions, PARTITIONS,
                            good, distances, PARTITIONS);
    print_answer(answer.refusal, "NNI 4 3 5 judged");
    if (answer.refusal != 0)
        return;
    printf("%" PRIu64 " partitions of %d are the same\n", answer.value,
           PARTITIONS);
    print_distances(distances);
}

/* Makes a move on the table, and counts the rows that it changed. A refused
 * move changes none. */
static void apply(uint8_t *table, tusvlane_move move, const char *what)
{
    uint8_t before[TABLE_BYTES];
    memcpy(before, table, TABLE_BYTES);
    print_answer(tusvlane_apply_move(TAXA, table, TABLE_BYTES, move), what);
    print_rows(before, table);
}

int main(void)
{
    uint8_t table[TABLE_BYTES];
    memcpy(table, tree_s, TABLE_BYTES);
    print_answer(tusvlane_check_tree(TAXA, table, TABLE_BYTES),
                 "tree S of 6 taxa");
    read_text(text_s, "text of tree S");
    judge(table);
    apply(table, good, "NNI 4 3 5 made");
    apply(table, wrong, "NNI 4 3 3");
    read_text(wrong_text, "text with taxon 4 twice");
    return 0;
}
