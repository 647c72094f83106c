/* Makes calls of the library as described on standard input, and writes each
 * answer and all lent memory after the call to standard output.
 *
 * A description: the function's number, eight numbers, four lengths in bytes,
 * then the four pieces of memory. An answer: what went wrong (0 when nothing),
 * eight numbers, then the four pieces. All numbers are 64 bits, low byte first.
 *
 * Each call is made three times on memory of exactly the lengths given:
 * 1. from malloc, so that a memory checker sees each byte beyond it; a piece
 *    of length 0 is the null pointer;
 * 2. right behind memory that cannot be touched, guard bytes after it;
 * 3. right before memory that cannot be touched, guard bytes in front of it. */
#define _DEFAULT_SOURCE
#include <stdint.h>
#include <stdio.h>
#include <stdlib.h>
#include <string.h>
#include <sys/mman.h>

#include "tusvlane.h"

enum { NUMBERS = 8, PIECES = 4, GUARD = 64, GUARD_BYTE = 0xA5 };
enum { PAGE = 65536, ROOM = 4 * PAGE };
enum { FINE = 0, GUARD_TOUCHED = 1, ANSWERS_DIFFER = 2 };
enum {
    CHECK_TREE = 1,
    INDUCED_SPLITS,
    COMPARE,
    APPLY_MOVE,
    JUDGE_MOVE,
    JUDGE_ONE,
    LIST_MOVE,
    START,
    STEP,
    READ_NEWICK
};

/* The places of the numbers and pieces of a description. */
enum { TAXA, VALUE, PLACE, MOVE, STATE_AT, STATE_TAXA, STATE_PARTS, STATE_MOVES };
enum { FIRST, TABLE, PARTITIONS, OUT };

struct description {
    uint64_t function;
    uint64_t number[NUMBERS];
    uint64_t length[PIECES];
    uint8_t *bytes[PIECES];
};

/* Ends the program: the description or the machine is at fault. */
static void fail(const char *what)
{
    fprintf(stderr, "calls: %s\n", what);
    exit(2);
}

/* The move in the low four bytes of a number, its kind the lowest. */
static tusvlane_move move_of(uint64_t number)
{
    tusvlane_move move = {(uint8_t)number, (uint8_t)(number >> 8),
                          (uint8_t)(number >> 16), (uint8_t)(number >> 24)};
    return move;
}

/* Puts an answer of one number where the driver keeps answers. */
static void put_answer(uint64_t *answer, tusvlane_answer given)
{
    answer[0] = given.refusal;
    answer[1] = given.value;
}

/* Puts a state where the driver keeps answers. */
static void put_state(uint64_t *answer, tusvlane_state state)
{
    answer[0] = state.at;
    answer[1] = state.taxa;
    answer[2] = state.parts;
    answer[3] = state.moves;
}

/* Makes a comparison of two trees. */
static void call_compare(const struct description *call, uint8_t **memory,
                         uint64_t *answer)
{
    tusvlane_comparison given = tusvlane_compare(
        call->number[TAXA], memory[FIRST], call->length[FIRST], memory[TABLE],
        call->length[TABLE], call->number[VALUE]);
    answer[0] = given.refusal;
    answer[1] = given.distance;
    answer[2] = given.missing;
}

/* Makes a step over one field of a job. */
static void call_step(const struct description *call, uint8_t **memory,
                      uint64_t *answer)
{
    tusvlane_state state = {call->number[STATE_AT], call->number[STATE_TAXA],
                            call->number[STATE_PARTS], call->number[STATE_MOVES]};
    tusvlane_stepped given = tusvlane_step(
        memory[FIRST], call->length[FIRST], state, memory[TABLE],
        call->length[TABLE], (uint64_t *)memory[PARTITIONS],
        call->length[PARTITIONS] / 8, memory[OUT], call->length[OUT]);
    answer[0] = given.refusal;
    answer[1] = given.ended;
    answer[2] = given.place;
    answer[3] = given.wrote;
    put_state(answer + 4, given.next);
}

/* Reads the Newick text that is the first piece. */
static void call_read_newick(const struct description *call, uint8_t **memory,
                             uint64_t *answer)
{
    tusvlane_placed given = tusvlane_read_newick(
        call->number[TAXA], memory[FIRST], call->length[FIRST], memory[OUT],
        call->length[OUT]);
    answer[0] = given.refusal;
    answer[1] = given.place;
}

/* Makes the described call on the given memory. */
static void make_call(const struct description *call, uint8_t **memory,
                      uint64_t *answer)
{
    uint64_t n = call->number[TAXA], value = call->number[VALUE];
    uint8_t *table = memory[TABLE];
    size_t table_bytes = call->length[TABLE];
    uint64_t *partitions = (uint64_t *)memory[PARTITIONS];
    size_t partition_count = call->length[PARTITIONS] / 8;
    uint64_t *out_numbers = (uint64_t *)memory[OUT];
    size_t out_bytes = call->length[OUT];
    tusvlane_move move = move_of(call->number[MOVE]);

    memset(answer, 0, NUMBERS * sizeof *answer);
    switch (call->function) {
    case CHECK_TREE:
        answer[0] = tusvlane_check_tree(n, table, table_bytes);
        break;
    case INDUCED_SPLITS:
        put_answer(answer, tusvlane_induced_splits(n, table, table_bytes, value,
                                                   out_numbers, out_bytes / 8));
        break;
    case COMPARE:
        call_compare(call, memory, answer);
        break;
    case APPLY_MOVE:
        answer[0] = tusvlane_apply_move(n, table, table_bytes, move);
        break;
    case JUDGE_MOVE:
        put_answer(answer, tusvlane_judge_move(n, table, table_bytes, partitions,
                                               partition_count, move, out_numbers,
                                               out_bytes / 8));
        break;
    case JUDGE_ONE:
        put_answer(answer, tusvlane_judge_one(n, table, table_bytes, value, move));
        break;
    case LIST_MOVE:
        put_answer(answer, tusvlane_list_move(n, table, table_bytes, partitions,
                                              partition_count, move, value,
                                              memory[OUT], out_bytes,
                                              call->number[PLACE]));
        break;
    case START:
        put_state(answer, tusvlane_start());
        break;
    case STEP:
        call_step(call, memory, answer);
        break;
    case READ_NEWICK:
        call_read_newick(call, memory, answer);
        break;
    default:
        fail("no such function");
    }
}

/* Memory of ROOM bytes between two pages that cannot be touched. */
static uint8_t *fenced_room(void)
{
    uint8_t *start = mmap(NULL, ROOM + 2 * PAGE, PROT_NONE,
                          MAP_PRIVATE | MAP_ANONYMOUS, -1, 0);
    if (start == MAP_FAILED ||
        mprotect(start + PAGE, ROOM, PROT_READ | PROT_WRITE) != 0)
        fail("no memory between fences");
    return start + PAGE;
}

/* Whether all guard bytes from here on are as they were. */
static int guard_kept(const uint8_t *guard)
{
    for (size_t i = 0; i < GUARD; i++)
        if (guard[i] != GUARD_BYTE)
            return 0;
    return 1;
}

/* Makes the call again in the fenced rooms, at their start or at their end,
 * and holds it to the answer and the memory of the first call. */
static uint64_t call_fenced(const struct description *call, uint8_t **room,
                            int at_end, const uint64_t *first_answer,
                            uint8_t **first_memory)
{
    uint8_t *memory[PIECES], *guard[PIECES];
    uint64_t answer[NUMBERS];
    for (int i = 0; i < PIECES; i++) {
        memory[i] = at_end ? room[i] + ROOM - call->length[i] : room[i];
        guard[i] = at_end ? memory[i] - GUARD : memory[i] + call->length[i];
        memcpy(memory[i], call->bytes[i], call->length[i]);
        memset(guard[i], GUARD_BYTE, GUARD);
    }
    make_call(call, memory, answer);
    for (int i = 0; i < PIECES; i++) {
        if (!guard_kept(guard[i]))
            return GUARD_TOUCHED;
        if (call->length[i] > 0 &&
            memcmp(memory[i], first_memory[i], call->length[i]) != 0)
            return ANSWERS_DIFFER;
    }
    if (memcmp(answer, first_answer, sizeof answer) != 0)
        return ANSWERS_DIFFER;
    return FINE;
}

/* A copy of so many bytes, and no more; none for none. */
static uint8_t *exact_copy(const uint8_t *bytes, size_t length)
{
    if (length == 0)
        return NULL;
    uint8_t *copy = malloc(length);
    if (copy == NULL)
        fail("no memory");
    memcpy(copy, bytes, length);
    return copy;
}

/* Makes the call in each way, and writes the answer and the memory. */
static void answer_call(const struct description *call, uint8_t **room)
{
    uint8_t *memory[PIECES];
    uint64_t answer[NUMBERS], wrong;
    for (int i = 0; i < PIECES; i++)
        memory[i] = exact_copy(call->bytes[i], call->length[i]);
    make_call(call, memory, answer);
    wrong = call_fenced(call, room, 0, answer, memory);
    if (wrong == FINE)
        wrong = call_fenced(call, room, 1, answer, memory);
    fwrite(&wrong, sizeof wrong, 1, stdout);
    fwrite(answer, sizeof answer, 1, stdout);
    for (int i = 0; i < PIECES; i++) {
        if (call->length[i] > 0)
            fwrite(memory[i], 1, call->length[i], stdout);
        free(memory[i]);
    }
    if (fflush(stdout) != 0)
        fail("cannot write");
}

/* Reads exactly so many bytes. */
static void read_all(void *to, size_t length)
{
    if (length > 0 && fread(to, 1, length, stdin) != length)
        fail("a description is cut short");
}

/* Reads one description into the kept buffers; 0 at the end of the input. */
static int read_call(struct description *call)
{
    if (fread(&call->function, sizeof call->function, 1, stdin) != 1)
        return 0;
    read_all(call->number, sizeof call->number);
    read_all(call->length, sizeof call->length);
    for (int i = 0; i < PIECES; i++) {
        if (call->length[i] > ROOM - GUARD)
            fail("a piece is too long");
        read_all(call->bytes[i], call->length[i]);
    }
    return 1;
}

int main(void)
{
    struct description call;
    uint8_t *room[PIECES];
    for (int i = 0; i < PIECES; i++) {
        room[i] = fenced_room();
        call.bytes[i] = malloc(ROOM);
        if (call.bytes[i] == NULL)
            fail("no memory");
    }
    while (read_call(&call))
        answer_call(&call, room);
    for (int i = 0; i < PIECES; i++)
        free(call.bytes[i]);
    return 0;
}
