/* The driver of the benchmark.
 *
 *   bench make N P        writes cases for N taxa and P partitions
 *   bench job N P M       writes a job of M moves
 *   bench check FILE      compares the library and plain C on the cases
 *   bench library FILE T  has the library judge the cases T times
 *   bench plain FILE T    has plain C judge them T times
 *
 * What is made depends on N and P alone, and the trees and moves of the cases
 * on N alone. */
#include "plain.h"

#include <stdio.h>
#include <stdlib.h>
#include <string.h>

enum { TABLE = 250, PARTITIONS = 64, CASES = 4000, LINES = 8192 };

/* A move and the tree that it is judged on. */
typedef struct {
    uint8_t table[TABLE];
    tusvlane_move move;
} turn;

/* The cases of one size. */
typedef struct {
    size_t taxa;
    size_t partition_count;
    uint64_t partitions[PARTITIONS];
    turn turns[CASES];
} cases;

static cases all;

/* The state of the random numbers: xorshift. */
static uint64_t seed;

static uint64_t draw(void)
{
    seed ^= seed << 13;
    seed ^= seed >> 7;
    seed ^= seed << 17;
    return seed;
}

/* A random number below a limit. */
static size_t below(size_t limit)
{
    return (size_t)(draw() >> 16) % limit;
}

static size_t row_count(void)
{
    return 2 * all.taxa - 3;
}

static size_t table_bytes(void)
{
    return 2 * row_count();
}

static void put_row(uint8_t *table, size_t row, size_t u, size_t v)
{
    table[2 * row] = (uint8_t)(u < v ? u : v);
    table[2 * row + 1] = (uint8_t)(u < v ? v : u);
}

/* Exchanges rows at random, so that a row's number says nothing of it. */
static void shuffle(uint8_t *table)
{
    for (size_t i = row_count() - 1; i > 0; i--) {
        size_t j = below(i + 1);
        uint8_t kept[2];
        memcpy(kept, table + 2 * i, 2);
        memcpy(table + 2 * i, table + 2 * j, 2);
        memcpy(table + 2 * j, kept, 2);
    }
}

/* Makes a random tree: each taxon from the fourth on is hung on some row. */
static void make_tree(uint8_t *table)
{
    size_t n = all.taxa;
    size_t rows = 3;
    for (size_t i = 0; i < 3; i++)
        put_row(table, i, i, n);
    for (size_t taxon = 3; taxon < n; taxon++) {
        size_t hung = below(rows);
        size_t inner = n + taxon - 2;
        size_t u = table[2 * hung];
        size_t v = table[2 * hung + 1];
        put_row(table, hung, u, inner);
        put_row(table, rows++, inner, v);
        put_row(table, rows++, taxon, inner);
    }
    shuffle(table);
}

/* Makes partitions in which 70 of 100 cells are empty. A taxon that is then in
 * none is put into one of them, so that no list is refused with 16. */
static void make_partitions(void)
{
    for (size_t taxon = 0; taxon < all.taxa; taxon++) {
        size_t seen = 0;
        for (size_t i = 0; i < all.partition_count; i++)
            if (below(100) >= 70) {
                all.partitions[i] |= (uint64_t)1 << taxon;
                seen++;
            }
        if (seen == 0)
            all.partitions[below(all.partition_count)] |= (uint64_t)1 << taxon;
    }
}

/* A random row at a node, other than one of them. */
static uint8_t row_at(const uint8_t *table, size_t v, size_t but)
{
    for (;;) {
        size_t row = below(row_count());
        if (row != but && (table[2 * row] == v || table[2 * row + 1] == v))
            return (uint8_t)row;
    }
}

/* A random move of the three kinds, whose rows fit more often than not. */
static tusvlane_move draw_move(const uint8_t *table, unsigned kind)
{
    uint8_t a = (uint8_t)below(row_count());
    uint8_t b = (uint8_t)below(row_count());
    uint8_t c = (uint8_t)below(row_count());
    if (kind == 2)
        return (tusvlane_move){2, a, b, 0};
    if (kind == 3)
        return (tusvlane_move){3, a, table[2 * a] < all.taxa ? a : b, c};
    while (table[2 * a] < all.taxa)
        a = (uint8_t)below(row_count());
    b = row_at(table, table[2 * a], a);
    c = row_at(table, table[2 * a + 1], a);
    return (tusvlane_move){1, a, b, c};
}

/* A random move that is accepted. */
static tusvlane_move draw_accepted(const uint8_t *table)
{
    unsigned kind = 1 + (unsigned)below(3);
    for (;;) {
        tusvlane_move m = draw_move(table, kind);
        if (plain_groups(all.taxa, table, table_bytes(), m))
            return m;
    }
}

/* Four random bytes, which are seldom a move that is accepted. */
static tusvlane_move draw_bytes(void)
{
    return (tusvlane_move){(uint8_t)below(5), (uint8_t)below(130),
                           (uint8_t)below(130), (uint8_t)below(130)};
}

/* Makes the cases: one move in 20 is of random bytes, and every eighth case
 * moves the tree. */
static void make_cases(void)
{
    uint8_t table[TABLE] = {0};
    make_tree(table);
    for (size_t i = 0; i < CASES; i++) {
        turn *t = &all.turns[i];
        t->move = below(20) ? draw_accepted(table) : draw_bytes();
        memcpy(t->table, table, TABLE);
        if (i % 8 == 7)
            plain_apply_move(all.taxa, table, table_bytes(), t->move);
    }
    make_partitions();
}

/* Writes the start of a field of a job. */
static void put_field(int tag, size_t length)
{
    putchar(tag);
    putchar((int)(length >> 8));
    putchar((int)(length & 255));
}

/* Writes a job whose moves are all accepted. */
static void make_job(size_t moves)
{
    uint8_t table[TABLE] = {0};
    make_tree(table);
    make_partitions();
    put_field(1, 1);
    putchar((int)all.taxa);
    put_field(2, table_bytes());
    fwrite(table, 1, table_bytes(), stdout);
    for (size_t i = 0; i < all.partition_count; i++) {
        put_field(3, 8);
        for (int shift = 56; shift >= 0; shift -= 8)
            putchar((int)(all.partitions[i] >> shift & 255));
    }
    for (size_t i = 0; i < moves; i++) {
        tusvlane_move m = draw_accepted(table);
        put_field(4, 4);
        fwrite(&m, 1, 4, stdout);
        plain_apply_move(all.taxa, table, table_bytes(), m);
    }
}

static void stop(const char *why, size_t which)
{
    fprintf(stderr, "bench: %s, case %zu\n", why, which);
    exit(1);
}

static void read_cases(const char *name)
{
    FILE *file = fopen(name, "rb");
    if (!file || fread(&all, sizeof all, 1, file) != 1)
        stop("no cases", 0);
    fclose(file);
}

/* Judges a case by both; every number of the output is compared. */
static tusvlane_answer check_judging(const turn *t, size_t which)
{
    uint64_t ours[PARTITIONS + 1];
    uint64_t theirs[PARTITIONS + 1];
    size_t count = all.partition_count;
    memset(ours, 0xa5, sizeof ours);
    memset(theirs, 0xa5, sizeof theirs);
    tusvlane_answer a =
        tusvlane_judge_move(all.taxa, t->table, table_bytes(), all.partitions,
                            count, t->move, ours, PARTITIONS);
    tusvlane_answer b =
        plain_judge_move(all.taxa, t->table, table_bytes(), all.partitions,
                         count, t->move, theirs, PARTITIONS);
    if (memcmp(&a, &b, sizeof a) || memcmp(ours, theirs, sizeof ours))
        stop("the judgements differ", which);
    return a;
}

/* Lists a case by both; every byte of the output and of the table is
 * compared. */
static void check_listing(const turn *t, size_t which)
{
    static uint8_t ours[LINES];
    static uint8_t theirs[LINES];
    turn x = *t;
    turn y = *t;
    size_t place = which % 50;
    size_t room = which % 10 ? LINES : 20 * all.partition_count;
    memset(ours, 0xa5, sizeof ours);
    memset(theirs, 0xa5, sizeof theirs);
    tusvlane_answer a =
        tusvlane_list_move(all.taxa, x.table, table_bytes(), all.partitions,
                           all.partition_count, t->move, which + 1, ours, room,
                           place);
    tusvlane_answer b =
        plain_list_move(all.taxa, y.table, table_bytes(), all.partitions,
                        all.partition_count, t->move, which + 1, theirs, room,
                        place);
    if (memcmp(&a, &b, sizeof a) || memcmp(ours, theirs, sizeof ours) ||
        memcmp(&x, &y, sizeof x))
        stop("the listings differ", which);
}

/* Spoils some byte of a case's table, so that the refusals 3 to 5 occur. */
static turn spoilt(const turn *t)
{
    turn x = *t;
    x.table[below(table_bytes())] = (uint8_t)below(2 * all.taxa);
    return x;
}

/* Exchanges ends of two rows, so that the degrees stay right. */
static turn crossed(const turn *t)
{
    turn x = *t;
    size_t r = below(row_count());
    size_t s = below(row_count());
    size_t u = x.table[2 * r];
    put_row(x.table, r, x.table[2 * s], x.table[2 * r + 1]);
    put_row(x.table, s, u, x.table[2 * s + 1]);
    return x;
}

/* Compares the two on every case; says how many were accepted and how many
 * groups they have. */
static void check(void)
{
    size_t accepted = 0;
    size_t groups = 0;
    for (size_t i = 0; i < CASES; i++) {
        const turn *t = &all.turns[i];
        turn bad = spoilt(t);
        turn cut = crossed(t);
        accepted += check_judging(t, i).refusal == 0;
        groups += plain_groups(all.taxa, t->table, table_bytes(), t->move);
        check_judging(&bad, i);
        check_judging(&cut, i);
        check_listing(t, i);
    }
    printf("%d %zu %zu\n", CASES, accepted, groups);
}

/* The call that is measured. */
typedef tusvlane_answer judging(size_t, const uint8_t *, size_t,
                                const uint64_t *, size_t, tusvlane_move,
                                uint64_t *restrict, size_t);

/* Judges every case so many times; the sum keeps the answers in use. */
static void run(judging *judge, unsigned long times)
{
    uint64_t out[PARTITIONS];
    uint64_t sum = 0;
    while (times-- > 0)
        for (size_t i = 0; i < CASES; i++) {
            const turn *t = &all.turns[i];
            sum += judge(all.taxa, t->table, table_bytes(), all.partitions,
                         all.partition_count, t->move, out, PARTITIONS)
                       .value;
        }
    printf("%llu\n", (unsigned long long)sum);
}

/* Takes the size of what is to be made, and sets the seed by the taxa. */
static void take_size(const char *taxa, const char *partitions)
{
    all.taxa = strtoul(taxa, 0, 10);
    all.partition_count = strtoul(partitions, 0, 10);
    if (all.taxa < 4 || all.taxa > 64 || all.partition_count < 1 ||
        all.partition_count > PARTITIONS)
        stop("4 to 64 taxa and 1 to 64 partitions", 0);
    seed = 88172645463325252u + all.taxa;
}

int main(int count, char **word)
{
    if (count == 4 && !strcmp(word[1], "make")) {
        take_size(word[2], word[3]);
        make_cases();
        fwrite(&all, sizeof all, 1, stdout);
    } else if (count == 5 && !strcmp(word[1], "job")) {
        take_size(word[2], word[3]);
        make_job(strtoul(word[4], 0, 10));
    } else if (count == 3 && !strcmp(word[1], "check")) {
        read_cases(word[2]);
        seed = 88172645463325252u;
        check();
    } else if (count == 4 && !strcmp(word[1], "library")) {
        read_cases(word[2]);
        run(tusvlane_judge_move, strtoul(word[3], 0, 10));
    } else if (count == 4 && !strcmp(word[1], "plain")) {
        read_cases(word[2]);
        run(plain_judge_move, strtoul(word[3], 0, 10));
    } else {
        stop("wrong words", 0);
    }
    return 0;
}
