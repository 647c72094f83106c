/* The library's rule in plain C, to measure the library against. */
#ifndef PLAIN_H
#define PLAIN_H

#include "../include/tusvlane.h"

/* As tusvlane_judge_move. */
tusvlane_answer plain_judge_move(size_t n, const uint8_t *table,
                                 size_t table_bytes,
                                 const uint64_t *partitions,
                                 size_t partition_count, tusvlane_move move,
                                 uint64_t *restrict out, size_t out_numbers);

/* As tusvlane_list_move. */
tusvlane_answer plain_list_move(size_t n, uint8_t *restrict table,
                                size_t table_bytes,
                                const uint64_t *partitions,
                                size_t partition_count, tusvlane_move move,
                                uint64_t number, uint8_t *restrict out,
                                size_t out_bytes, size_t place);

/* As tusvlane_check_tree. */
uint32_t plain_check_tree(size_t n, const uint8_t *table, size_t table_bytes);

/* As tusvlane_apply_move. */
uint32_t plain_apply_move(size_t n, uint8_t *restrict table,
                          size_t table_bytes, tusvlane_move move);

/* How many groups hang about a move; 0 for one that is refused. */
size_t plain_groups(size_t n, const uint8_t *table, size_t table_bytes,
                    tusvlane_move move);

/* Writes a number in decimal; how many bytes. */
size_t plain_number(uint8_t *out, uint64_t number);

#endif
