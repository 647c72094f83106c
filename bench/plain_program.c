/* The program verdicts in plain C: reads a job on standard input and writes
 * its listing. */
#include "plain.h"

#include <stdio.h>
#include <string.h>

enum { LONGEST = 65535, TABLE = 250, PARTITIONS = 64, LINES = 8192 };

/* A job and how far it was read. */
typedef struct {
    uint8_t bytes[LONGEST + 1];
    size_t length;
    size_t at;
    size_t taxa;
    uint8_t table[TABLE];
    size_t partition_count;
    uint64_t partitions[PARTITIONS];
    uint64_t moves;
} job;

/* The field at hand. */
static const uint8_t *field(const job *j)
{
    return j->bytes + j->at;
}

static size_t rest(const job *j)
{
    return j->length - j->at;
}

/* The stated length of the field at hand. */
static size_t stated(const job *j)
{
    return (size_t)field(j)[1] << 8 | field(j)[2];
}

/* Whether the field at hand has a length and is there to its end. */
static int has(const job *j, size_t length)
{
    return rest(j) >= 3 && stated(j) == length && rest(j) - 3 >= length;
}

/* Whether the tag of the field at hand is allowed there. */
static int allowed(const job *j)
{
    unsigned tag = field(j)[0];
    if (j->at == 0)
        return tag == 1;
    if (j->at == 4)
        return tag == 2;
    if (j->partition_count > 0 && tag == 4)
        return 1;
    return tag == 3 && j->moves == 0 && j->partition_count < PARTITIONS;
}

/* All taxa of the job. */
static uint64_t all_taxa(const job *j)
{
    return ~(uint64_t)0 >> (64 - j->taxa);
}

/* Whether the partitions are over at hand, and a taxon is in none of them. */
static int unseen(const job *j)
{
    uint64_t seen = 0;
    if (j->partition_count == 0 || j->moves > 0)
        return 0;
    if (rest(j) > 0 && field(j)[0] == 3)
        return 0;
    for (size_t i = 0; i < j->partition_count; i++)
        seen |= j->partitions[i];
    return seen != all_taxa(j);
}

static unsigned read_taxa(job *j)
{
    if (!has(j, 1))
        return TUSVLANE_FIELD;
    j->taxa = field(j)[3];
    if (j->taxa < 4 || j->taxa > 64)
        return TUSVLANE_COUNT;
    j->at += 4;
    return 0;
}

static unsigned read_table(job *j)
{
    size_t length = 2 * (2 * j->taxa - 3);
    if (rest(j) < 3)
        return TUSVLANE_FIELD;
    if (stated(j) != length)
        return TUSVLANE_LENGTH;
    if (rest(j) - 3 < length)
        return TUSVLANE_FIELD;
    memcpy(j->table, field(j) + 3, length);
    j->at += 3 + length;
    return plain_check_tree(j->taxa, j->table, length);
}

static unsigned read_partition(job *j)
{
    uint64_t partition = 0;
    if (!has(j, 8))
        return TUSVLANE_FIELD;
    for (size_t i = 0; i < 8; i++)
        partition = partition << 8 | field(j)[3 + i];
    if (partition & ~all_taxa(j))
        return TUSVLANE_PARTITION;
    j->partitions[j->partition_count++] = partition;
    j->at += 11;
    return 0;
}

static unsigned read_move(job *j)
{
    static uint8_t lines[LINES];
    tusvlane_move move;
    if (!has(j, 4))
        return TUSVLANE_FIELD;
    memcpy(&move, field(j) + 3, 4);
    tusvlane_answer answer =
        plain_list_move(j->taxa, j->table, 2 * (2 * j->taxa - 3),
                        j->partitions, j->partition_count, move, j->moves + 1,
                        lines, LINES, 0);
    if (answer.refusal)
        return (unsigned)answer.refusal;
    fwrite(lines, 1, answer.value, stdout);
    j->at += 7;
    j->moves++;
    return 0;
}

/* Reads the field at hand: 0 or a refusal. */
static unsigned read_field(job *j)
{
    if (unseen(j))
        return TUSVLANE_UNSEEN;
    if (!allowed(j))
        return TUSVLANE_FIELD;
    switch (field(j)[0]) {
    case 1:
        return read_taxa(j);
    case 2:
        return read_table(j);
    case 3:
        return read_partition(j);
    default:
        return read_move(j);
    }
}

static void refuse(unsigned refusal, size_t place)
{
    printf("refused %u at %zu\n", refusal, place);
}

int main(void)
{
    static job j;
    j.length = fread(j.bytes, 1, sizeof j.bytes, stdin);
    if (j.length > LONGEST) {
        refuse(TUSVLANE_LONG, 0);
        return 0;
    }
    while (j.at < j.length) {
        size_t place = j.at;
        unsigned refusal = read_field(&j);
        if (refusal) {
            refuse(refusal, place);
            return 0;
        }
    }
    if (j.partition_count == 0)
        refuse(TUSVLANE_FIELD, j.length);
    else if (unseen(&j))
        refuse(TUSVLANE_UNSEEN, j.length);
    else
        printf("end %llu\n", (unsigned long long)j.moves);
    return 0;
}
