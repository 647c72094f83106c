/* The library's rule in plain C, to measure the library against. */
#include "plain.h"

#include <string.h>

enum { TAXA = 64, NODES = 2 * TAXA - 2, ROWS = 2 * TAXA - 3, PARTITIONS = 64 };

/* A table and what is found of it.
 *
 * - at: the rows at each node, ascending; the fourth place is spare.
 * - left: how many rows of a node are found and still without a side.
 * - open: the exclusive or of those rows.
 * - side: for each row the taxa with its smaller end. */
typedef struct {
    const uint8_t *table;
    size_t taxa;
    size_t rows;
    uint64_t all;
    uint8_t at[NODES][4];
    uint8_t left[NODES];
    uint8_t open[NODES];
    uint64_t side[ROWS];
} tree;

/* The groups on one side of a move, and the taxa of all of them. */
typedef struct {
    uint64_t taxa;
    size_t count;
    uint64_t group[NODES];
} groups;

static size_t lo(const tree *t, size_t row)
{
    return t->table[2 * row];
}

static size_t hi(const tree *t, size_t row)
{
    return t->table[2 * row + 1];
}

/* The end of a row that is not v, v being one of them. */
static size_t far(const tree *t, size_t row, size_t v)
{
    return lo(t, row) ^ hi(t, row) ^ v;
}

static int touches(const tree *t, size_t row, size_t v)
{
    return lo(t, row) == v || hi(t, row) == v;
}

/* The taxa with the end v of a row. */
static uint64_t with(const tree *t, size_t row, size_t v)
{
    return lo(t, row) == v ? t->side[row] : t->all ^ t->side[row];
}

/* Whether a row lies among the taxa of one end of another: it divides them. */
static int inside(const tree *t, uint64_t taxa, size_t row)
{
    uint64_t cut = taxa & t->side[row];
    return cut != 0 && cut != taxa;
}

/* Puts a row at a node; what a node has too many of goes to some place. */
static void hook(tree *t, size_t v, size_t row)
{
    t->at[v][t->left[v]++ & 3] = (uint8_t)row;
    t->open[v] ^= (uint8_t)row;
}

/* Whether the nodes from one to another are at so many rows each. */
static int degrees_are(const tree *t, size_t from, size_t to, unsigned wanted)
{
    for (size_t v = from; v < to; v++)
        if (t->left[v] != wanted)
            return 0;
    return 1;
}

/* Finds the rows at each node: refusals 3 and 4. */
static unsigned find_rows(tree *t)
{
    memset(t->left, 0, sizeof t->left);
    memset(t->open, 0, sizeof t->open);
    for (size_t row = 0; row < t->rows; row++) {
        size_t u = lo(t, row);
        size_t v = hi(t, row);
        if (v <= u || v > t->rows)
            return TUSVLANE_ENDS;
        hook(t, u, row);
        hook(t, v, row);
    }
    if (!degrees_are(t, 0, t->taxa, 1) ||
        !degrees_are(t, t->taxa, t->rows + 1, 3))
        return TUSVLANE_DEGREE;
    return 0;
}

/* Finds the sides from the taxa inward: a node with one row left hands the
 * taxa that it was handed on over that row. Refusal 5: the rows of a ring stay
 * without a side, and without a ring the 2n-3 rows reach every node. */
static unsigned find_sides(tree *t)
{
    uint64_t handed[NODES];
    size_t done = 0;
    memset(handed, 0, (t->rows + 1) * sizeof handed[0]);
    for (size_t taxon = 0; taxon < t->taxa; taxon++) {
        size_t v = taxon;
        uint64_t taxa = (uint64_t)1 << v;
        while (t->left[v] == 1) {
            size_t row = t->open[v];
            size_t w = far(t, row, v);
            t->side[row] = v < w ? taxa : t->all ^ taxa;
            done++;
            t->left[w]--;
            t->open[w] ^= (uint8_t)row;
            taxa |= handed[w];
            handed[w] = taxa;
            v = w;
        }
    }
    return done == t->rows ? 0 : TUSVLANE_UNREACHED;
}

/* Reads a table: refusals 1 to 5. */
static unsigned read_tree(tree *t, size_t n, const uint8_t *table,
                          size_t table_bytes)
{
    if (n < 4 || n > TAXA)
        return TUSVLANE_COUNT;
    if (table_bytes != 2 * (2 * n - 3))
        return TUSVLANE_LENGTH;
    t->table = table;
    t->taxa = n;
    t->rows = 2 * n - 3;
    t->all = ~(uint64_t)0 >> (64 - n);
    unsigned refusal = find_rows(t);
    return refusal ? refusal : find_sides(t);
}

/* Checks a list of partitions: refusals 6 and 16. */
static unsigned check_partitions(const tree *t, const uint64_t *partitions,
                                 size_t count)
{
    uint64_t named = 0;
    if (count < 1 || count > PARTITIONS)
        return TUSVLANE_PARTITION;
    for (size_t i = 0; i < count; i++)
        named |= partitions[i];
    if (named & ~t->all)
        return TUSVLANE_PARTITION;
    return named == t->all ? 0 : TUSVLANE_UNSEEN;
}

/* Whether a move's second row is at node u, and its third at node v. */
static int at_ends(const tree *t, tusvlane_move m, size_t u, size_t v)
{
    return touches(t, m.second, u) && touches(t, m.third, v);
}

static unsigned check_nni(const tree *t, tusvlane_move m)
{
    size_t u = lo(t, m.first);
    size_t v = hi(t, m.first);
    if (u < t->taxa || m.second == m.first || m.third == m.first)
        return TUSVLANE_MISFIT;
    return at_ends(t, m, u, v) || at_ends(t, m, v, u) ? 0 : TUSVLANE_MISFIT;
}

/* The end of an SPR's first row in the part of its second. */
static size_t moving_end(const tree *t, tusvlane_move m)
{
    size_t v = hi(t, m.first);
    return inside(t, with(t, m.first, v), m.second) ? v : lo(t, m.first);
}

static unsigned check_spr(const tree *t, tusvlane_move m)
{
    if (m.first == m.second)
        return TUSVLANE_MISFIT;
    return touches(t, m.second, moving_end(t, m)) ? TUSVLANE_IDLE : 0;
}

/* Whether b is a target for the end v of row a. */
static int is_target(const tree *t, size_t a, size_t v, size_t b)
{
    return v < t->taxa ? b == a : inside(t, with(t, a, v), b);
}

static unsigned check_tbr(const tree *t, tusvlane_move m)
{
    size_t u = lo(t, m.first);
    size_t v = hi(t, m.first);
    if (!is_target(t, m.first, u, m.second) ||
        !is_target(t, m.first, v, m.third))
        return TUSVLANE_MISFIT;
    return at_ends(t, m, u, v) ? TUSVLANE_IDLE : 0;
}

/* Checks a move: refusals 7 to 10. */
static unsigned check_move(const tree *t, tusvlane_move m)
{
    if (m.kind < 1 || m.kind > 3 || (m.kind == 2 && m.third != 0))
        return TUSVLANE_KIND;
    if (m.first >= t->rows || m.second >= t->rows || m.third >= t->rows)
        return TUSVLANE_ROW;
    if (m.kind == 1)
        return check_nni(t, m);
    return m.kind == 2 ? check_spr(t, m) : check_tbr(t, m);
}

/* The two rows at a node other than one of them, the lower first. */
static void others(const tree *t, size_t v, size_t row, size_t *f, size_t *g)
{
    const uint8_t *at = t->at[v];
    *f = at[0] == row ? at[1] : at[0];
    *g = at[2] == row ? at[1] : at[2];
}

/* The groups from the end v of row a to its target b. What lies ahead at each
 * node is divided by its two other rows, and the target is on one of them. */
static void walk(const tree *t, size_t a, size_t v, size_t b, groups *out)
{
    uint64_t ahead = with(t, a, v);
    uint64_t last = t->side[b] & ~ahead ? t->all ^ t->side[b] : t->side[b];
    size_t row = a;
    out->taxa = ahead;
    out->count = 0;
    while (ahead != last) {
        size_t f;
        size_t g;
        others(t, v, row, &f, &g);
        size_t w = far(t, f, v);
        uint64_t part = with(t, f, w);
        if (part & last) {
            out->group[out->count++] = ahead ^ part;
            ahead = part;
            row = f;
        } else {
            out->group[out->count++] = part;
            ahead ^= part;
            row = g;
            w = far(t, g, v);
        }
        v = w;
    }
    out->group[out->count++] = last;
}

/* The groups of the end v of row a that stays. */
static void stay(const tree *t, size_t a, size_t v, groups *out)
{
    size_t f;
    size_t g;
    out->taxa = with(t, a, v);
    out->count = 1;
    out->group[0] = out->taxa;
    if (v < t->taxa)
        return;
    others(t, v, a, &f, &g);
    out->count = 2;
    out->group[0] = with(t, f, far(t, f, v));
    out->group[1] = out->taxa ^ out->group[0];
}

/* The groups on the two sides of a move that fits. */
static void find_groups(const tree *t, tusvlane_move m, groups *first,
                        groups *second)
{
    size_t u = lo(t, m.first);
    size_t v = hi(t, m.first);
    if (m.kind == 1) {
        stay(t, m.first, u, first);
        stay(t, m.first, v, second);
    } else if (m.kind == 2) {
        size_t p = moving_end(t, m);
        walk(t, m.first, p, m.second, first);
        stay(t, m.first, far(t, m.first, p), second);
    } else {
        walk(t, m.first, u, m.second, first);
        walk(t, m.first, v, m.third, second);
    }
}

/* What a side adds to half the distance: how many of its groups meet the
 * partition, less two. One or two groups add nothing. */
static size_t added(const groups *g, uint64_t partition)
{
    size_t met = 0;
    if (g->count <= 2)
        return 0;
    for (size_t i = 0; i < g->count; i++)
        met += (g->group[i] & partition) != 0;
    return met > 2 ? met - 2 : 0;
}

/* The distance that an NNI makes: all four groups are met or not. */
static uint64_t nni_distance(const groups *first, const groups *second,
                             uint64_t partition)
{
    return (first->group[0] & partition) && (first->group[1] & partition) &&
                   (second->group[0] & partition) &&
                   (second->group[1] & partition)
               ? 2
               : 0;
}

/* The distance that an SPR or a TBR makes. */
static uint64_t distance(const groups *first, const groups *second,
                         uint64_t partition)
{
    if (!(first->taxa & partition) || !(second->taxa & partition))
        return 0;
    return 2 * (added(first, partition) + added(second, partition));
}

/* Writes the distance over each partition; how many are 0. */
static size_t judge(const tree *t, const uint64_t *partitions, size_t count,
                    tusvlane_move m, uint64_t *restrict out)
{
    groups first;
    groups second;
    size_t same = 0;
    find_groups(t, m, &first, &second);
    for (size_t i = 0; i < count; i++) {
        out[i] = m.kind == 1 ? nni_distance(&first, &second, partitions[i])
                             : distance(&first, &second, partitions[i]);
        same += out[i] == 0;
    }
    return same;
}

/* Reads what a call about a move is lent: refusals 1 to 6, 16, and 7 to 10. */
static unsigned read_all(tree *t, size_t n, const uint8_t *table,
                         size_t table_bytes, const uint64_t *partitions,
                         size_t count, tusvlane_move m)
{
    unsigned refusal = read_tree(t, n, table, table_bytes);
    if (!refusal)
        refusal = check_partitions(t, partitions, count);
    return refusal ? refusal : check_move(t, m);
}

tusvlane_answer plain_judge_move(size_t n, const uint8_t *table,
                                 size_t table_bytes,
                                 const uint64_t *partitions,
                                 size_t partition_count, tusvlane_move move,
                                 uint64_t *restrict out, size_t out_numbers)
{
    tree t;
    unsigned refusal = read_all(&t, n, table, table_bytes, partitions,
                                partition_count, move);
    if (!refusal && out_numbers < partition_count)
        refusal = TUSVLANE_ROOM;
    if (refusal)
        return (tusvlane_answer){refusal, 0};
    size_t same = judge(&t, partitions, partition_count, move, out);
    return (tusvlane_answer){0, same};
}

size_t plain_groups(size_t n, const uint8_t *table, size_t table_bytes,
                    tusvlane_move move)
{
    tree t;
    groups first;
    groups second;
    if (read_tree(&t, n, table, table_bytes) || check_move(&t, move))
        return 0;
    find_groups(&t, move, &first, &second);
    return first.count + second.count;
}

uint32_t plain_check_tree(size_t n, const uint8_t *table, size_t table_bytes)
{
    tree t;
    return read_tree(&t, n, table, table_bytes);
}

/* Makes a row u-v, the smaller end first. */
static void put(uint8_t *table, size_t row, size_t u, size_t v)
{
    table[2 * row] = (uint8_t)(u < v ? u : v);
    table[2 * row + 1] = (uint8_t)(u < v ? v : u);
}

/* Moves the end p of row a onto row b, or lets it stay where b touches it. The
 * rows at p are those found before the move. */
static void move_end(const tree *t, uint8_t *table, size_t p, size_t a,
                     size_t b)
{
    size_t f;
    size_t g;
    if (touches(t, b, p))
        return;
    others(t, p, a, &f, &g);
    size_t r = far(t, f, p);
    size_t s = far(t, g, p);
    size_t c = lo(t, b);
    size_t d = hi(t, b);
    put(table, f, r, s);
    put(table, b, c, p);
    put(table, g, p, d);
}

/* Exchanges the ends that rows x and y have on row e. */
static void exchange(const tree *t, uint8_t *table, size_t e, size_t x,
                     size_t y)
{
    size_t p = touches(t, x, lo(t, e)) ? lo(t, e) : hi(t, e);
    size_t q = far(t, e, p);
    size_t u = far(t, x, p);
    size_t v = far(t, y, q);
    put(table, x, q, u);
    put(table, y, p, v);
}

/* Makes a move that fits. */
static void make(const tree *t, uint8_t *table, tusvlane_move m)
{
    size_t u = lo(t, m.first);
    size_t v = hi(t, m.first);
    if (m.kind == 1) {
        exchange(t, table, m.first, m.second, m.third);
    } else if (m.kind == 2) {
        move_end(t, table, moving_end(t, m), m.first, m.second);
    } else {
        move_end(t, table, u, m.first, m.second);
        move_end(t, table, v, m.first, m.third);
    }
}

uint32_t plain_apply_move(size_t n, uint8_t *restrict table,
                          size_t table_bytes, tusvlane_move move)
{
    tree t;
    unsigned refusal = read_tree(&t, n, table, table_bytes);
    if (!refusal)
        refusal = check_move(&t, move);
    if (!refusal)
        make(&t, table, move);
    return refusal;
}

static size_t digits(uint64_t number)
{
    size_t count = 1;
    while (number >= 10) {
        number /= 10;
        count++;
    }
    return count;
}

size_t plain_number(uint8_t *out, uint64_t number)
{
    size_t count = digits(number);
    for (size_t i = count; i-- > 0; number /= 10)
        out[i] = (uint8_t)('0' + number % 10);
    return count;
}

/* The number of the terrace class between none and full. */
static size_t class_of(size_t same, size_t count)
{
    size_t i = 1;
    while (i < 10 && 10 * same > i * count)
        i++;
    return i;
}

/* How many partitions are the same and have four or more taxa. */
static size_t saved_of(const uint64_t *partitions, const uint64_t *distances,
                       size_t count)
{
    size_t saved = 0;
    for (size_t i = 0; i < count; i++)
        saved += distances[i] == 0 && __builtin_popcountll(partitions[i]) >= 4;
    return saved;
}

/* How many bytes the lines of a move take. */
static size_t lines_width(uint64_t number, const uint64_t *distances,
                          size_t count, size_t saved, size_t same)
{
    size_t head = digits(number) + 1;
    size_t width = head + 8 + digits(saved);
    if (same == 0 || same == count)
        width += 4;
    else
        width += 2 + digits(class_of(same, count));
    for (size_t i = 0; i < count; i++) {
        width += head + digits(i + 1);
        width += distances[i] ? 10 + digits(distances[i]) : 8;
    }
    return width;
}

/* Writes a word; where it ends. */
static uint8_t *put_word(uint8_t *out, const char *word, size_t width)
{
    memcpy(out, word, width);
    return out + width;
}

/* Writes a partition's line after the move's number; where it ends. */
static uint8_t *put_verdict(uint8_t *out, size_t partition, uint64_t distance)
{
    out += plain_number(out, partition);
    if (distance == 0)
        return put_word(out, " same 0\n", 8);
    out = put_word(out, " changed ", 9);
    out += plain_number(out, distance);
    return put_word(out, "\n", 1);
}

/* Writes the closing line after the move's number. */
static void put_saved(uint8_t *out, size_t saved, size_t same, size_t count)
{
    out = put_word(out, "saved ", 6);
    out += plain_number(out, saved);
    if (same == 0) {
        put_word(out, " none\n", 6);
    } else if (same == count) {
        put_word(out, " full\n", 6);
    } else {
        out = put_word(out, " pt", 3);
        out += plain_number(out, class_of(same, count));
        put_word(out, "\n", 1);
    }
}

/* Writes the lines of a move. */
static void put_lines(uint8_t *out, uint64_t number, const uint64_t *distances,
                      size_t count, size_t saved, size_t same)
{
    uint8_t head[21];
    size_t width = plain_number(head, number);
    head[width++] = ' ';
    for (size_t i = 0; i < count; i++) {
        memcpy(out, head, width);
        out = put_verdict(out + width, i + 1, distances[i]);
    }
    memcpy(out, head, width);
    put_saved(out + width, saved, same, count);
}

tusvlane_answer plain_list_move(size_t n, uint8_t *restrict table,
                                size_t table_bytes,
                                const uint64_t *partitions,
                                size_t partition_count, tusvlane_move move,
                                uint64_t number, uint8_t *restrict out,
                                size_t out_bytes, size_t place)
{
    tree t;
    uint64_t distances[PARTITIONS];
    unsigned refusal = read_all(&t, n, table, table_bytes, partitions,
                                partition_count, move);
    if (refusal)
        return (tusvlane_answer){refusal, 0};
    size_t same = judge(&t, partitions, partition_count, move, distances);
    size_t saved = saved_of(partitions, distances, partition_count);
    size_t width = lines_width(number, distances, partition_count, saved, same);
    if (place > out_bytes || out_bytes - place < width)
        return (tusvlane_answer){TUSVLANE_ROOM, 0};
    make(&t, table, move);
    put_lines(out + place, number, distances, partition_count, saved, same);
    return (tusvlane_answer){0, place + width};
}
