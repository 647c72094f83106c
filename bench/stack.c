/* Measures how many bytes of stack each call takes at 64 taxa, on an even tree
 * and on the most uneven one. bench/stack builds and runs it.
 *
 * A call is made on a stack of its own, which is painted before. The lowest
 * byte that has changed tells how deep the call went. What the road to the
 * call takes is measured with a call that does nothing, and subtracted. A call
 * can write the very byte of the paint, so that two paints are used and the
 * larger number is taken. */
#include "../include/tusvlane.h"

#include <stdio.h>
#include <stdlib.h>
#include <string.h>
#include <ucontext.h>

enum { TAXA = 64, ROWS = 2 * TAXA - 3, TABLE = 2 * ROWS, PARTITIONS = 64 };
enum { AREA = 65536, SPARE = 4096, ADDRESS = 8, TEXT = 512, ROOM = 8192 };

/* The offsets of a job's table, of its partitions and of its two moves. */
enum {
    TABLE_AT = 4,
    LIST_AT = TABLE_AT + 3 + TABLE,
    MOVES_AT = LIST_AT + 11 * PARTITIONS,
    JOB = MOVES_AT + 2 * 7
};

/* What the calls are lent and told. */
typedef struct {
    size_t taxa;
    size_t table_bytes;
    size_t partition_count;
    size_t text_bytes;
    size_t room;
    uint64_t partition;
    tusvlane_move move;
    tusvlane_state state;
    uint64_t partitions[PARTITIONS];
    uint8_t table[TABLE];
    uint8_t second[TABLE];
    uint8_t text[TEXT];
    uint8_t job[JOB];
} lending;

/* What is given to a call, the copy of it that the call can write to, and
 * where it writes its answer. */
static lending given;
static lending lent;
static uint64_t numbers[ROOM];
static uint8_t bytes[ROOM];

/* The refusal of the last call, its place in a text, and a step's answer. */
static uint64_t refusal;
static size_t place;
static tusvlane_stepped stepped;

/* The painted stack. */
static uint8_t area[AREA];

static void stop(const char *why, const char *what)
{
    fprintf(stderr, "stack: %s: %s\n", why, what);
    exit(1);
}

/* The call that is made: one of the library, or the one that does nothing. It
 * is volatile, so that the compiler knows nothing of what is called. */
static void (*volatile called)(void);

#define AS(call) ((__typeof__(&call))called)

/* The call that does nothing. It gives back its first argument, as every call
 * does whose answer is written to memory. */
static void *nothing(void *first)
{
    return first;
}

/* The roads to the calls: each takes what is lent, and keeps the refusal. */
static void check_tree(void)
{
    refusal = AS(tusvlane_check_tree)(lent.taxa, lent.table, lent.table_bytes);
}

static void induced_splits(void)
{
    refusal =
        AS(tusvlane_induced_splits)(lent.taxa, lent.table, lent.table_bytes,
                                    lent.partition, numbers, lent.room)
            .refusal;
}

static void compare(void)
{
    refusal = AS(tusvlane_compare)(lent.taxa, lent.table, lent.table_bytes,
                                   lent.second, TABLE, lent.partition)
                  .refusal;
}

static void apply_move(void)
{
    refusal = AS(tusvlane_apply_move)(lent.taxa, lent.table, lent.table_bytes,
                                      lent.move);
}

static void judge_move(void)
{
    refusal = AS(tusvlane_judge_move)(lent.taxa, lent.table, lent.table_bytes,
                                      lent.partitions, lent.partition_count,
                                      lent.move, numbers, lent.room)
                  .refusal;
}

static void judge_one(void)
{
    refusal = AS(tusvlane_judge_one)(lent.taxa, lent.table, lent.table_bytes,
                                     lent.partition, lent.move)
                  .refusal;
}

static void list_move(void)
{
    refusal =
        AS(tusvlane_list_move)(lent.taxa, lent.table, lent.table_bytes,
                               lent.partitions, lent.partition_count,
                               lent.move, UINT64_MAX, bytes, lent.room, 0)
            .refusal;
}

static void read_newick(void)
{
    tusvlane_placed answer = AS(tusvlane_read_newick)(
        lent.taxa, lent.text, lent.text_bytes, bytes, lent.room);
    refusal = answer.refusal;
    place = answer.place;
}

/* A start is never refused; all its numbers are 0. */
static void start(void)
{
    tusvlane_state first = AS(tusvlane_start)();
    refusal = first.at | first.taxa | first.parts | first.moves;
}

static void step(void)
{
    stepped = AS(tusvlane_step)(lent.job, JOB, lent.state, lent.table, TABLE,
                                lent.partitions, PARTITIONS, bytes, lent.room);
    refusal = stepped.refusal;
}

/* A call: the road to it, what the road takes, and the most that the call took
 * on the trees of one shape. */
typedef struct {
    const char *name;
    void (*road)(void);
    void (*call)(void);
    size_t road_bytes;
    size_t most;
} measured;

#define CALL(name) {#name, name, (void (*)(void))tusvlane_##name, 0, 0}

static measured calls[] = {
    CALL(check_tree), CALL(induced_splits), CALL(compare),   CALL(apply_move),
    CALL(judge_move), CALL(judge_one),      CALL(list_move), CALL(read_newick),
    CALL(start),      CALL(step),
};

/* The places of the calls in that list. */
enum {
    CHECK_TREE,
    INDUCED_SPLITS,
    COMPARE,
    APPLY_MOVE,
    JUDGE_MOVE,
    JUDGE_ONE,
    LIST_MOVE,
    READ_NEWICK,
    START,
    STEP,
    CALLS
};

/* Goes the road on the painted stack; how many bytes from its top to the
 * lowest that has changed. */
static size_t depth(void (*road)(void), uint8_t paint)
{
    ucontext_t here;
    ucontext_t there;
    size_t low = 0;
    lent = given;
    memset(area, paint, AREA);
    if (getcontext(&there))
        stop("no context", "getcontext");
    there.uc_stack.ss_sp = area;
    there.uc_stack.ss_size = AREA;
    there.uc_link = &here;
    makecontext(&there, road, 0);
    if (swapcontext(&here, &there))
        stop("no context", "swapcontext");
    while (low < AREA && area[low] == paint)
        low++;
    return AREA - low;
}

/* The larger depth of two paints. */
static size_t depth_of(void (*road)(void), void (*call)(void))
{
    called = call;
    size_t first = depth(road, 0xa5);
    size_t second = depth(road, 0x5a);
    return first > second ? first : second;
}

/* Finds what the roads take, up to the return address of the call. */
static void measure_roads(void)
{
    for (size_t i = 0; i < CALLS; i++)
        calls[i].road_bytes =
            depth_of(calls[i].road, (void (*)(void))nothing) - ADDRESS;
}

/* Measures a call, whose refusal is known. */
static void measure(size_t which, uint64_t wanted)
{
    measured *m = &calls[which];
    size_t deep = depth_of(m->road, m->call);
    if (deep < m->road_bytes + ADDRESS)
        stop("less than a return address", m->name);
    if (deep > AREA - SPARE)
        stop("the painted stack is too small", m->name);
    if (refusal != wanted)
        stop("not the refusal that was expected", m->name);
    if (m->most < deep - m->road_bytes)
        m->most = deep - m->road_bytes;
}

static void measure_each(const size_t *which, size_t count, uint64_t wanted)
{
    for (size_t i = 0; i < count; i++)
        measure(which[i], wanted);
}

/* A text of a tree: how its groups are divided, and where the outermost is
 * divided into three. With 0 it has two members, divided as the others. */
typedef struct {
    enum { EVENLY, LAST_OFF, FIRST_OFF } divided;
    size_t first;
    size_t second;
} outline;

/* The even tree as a text; the first outline is the one for the tables. */
static const outline even[] = {
    {EVENLY, 0, 0}, {EVENLY, 16, 32}, {EVENLY, 32, 48}
};

/* The most uneven tree: the innermost group is in the first member of each
 * group around it, or in the second; of three outermost ones in any. */
static const outline uneven[] = {
    {LAST_OFF, 0, 0},   {FIRST_OFF, 0, 0}, {LAST_OFF, 62, 63},
    {FIRST_OFF, 1, 63}, {LAST_OFF, 1, 63}, {FIRST_OFF, 1, 2}
};

static void put_char(char c)
{
    given.text[given.text_bytes++] = (uint8_t)c;
}

/* Writes the group of the taxa from one up to another. Where they are turned,
 * the last taxon is 0. */
static void put_group(const outline *o, int turned, size_t from, size_t to)
{
    size_t cut = (from + to) / 2;
    if (to - from == 1) {
        size_t taxon = turned ? TAXA - 1 - from : from;
        if (taxon > 9)
            put_char((char)('0' + taxon / 10));
        put_char((char)('0' + taxon % 10));
        return;
    }
    if (o->divided != EVENLY)
        cut = o->divided == LAST_OFF ? to - 1 : from + 1;
    put_char('(');
    put_group(o, turned, from, cut);
    put_char(',');
    put_group(o, turned, cut, to);
    put_char(')');
}

/* Writes the text of a tree. */
static void put_text(const outline *o, int turned)
{
    given.text_bytes = 0;
    if (o->first == 0) {
        put_group(o, turned, 0, TAXA);
    } else {
        put_char('(');
        put_group(o, turned, 0, o->first);
        put_char(',');
        put_group(o, turned, o->first, o->second);
        put_char(',');
        put_group(o, turned, o->second, TAXA);
        put_char(')');
    }
    put_char(';');
}

/* Measures the reading of a text: whole, cut short at each place, with a byte
 * too many, with no room, and for too many taxa. */
static void measure_text(const outline *o, int turned)
{
    lending kept = given;
    put_text(o, turned);
    size_t whole = given.text_bytes;
    measure(READ_NEWICK, 0);
    for (given.text_bytes = 0; given.text_bytes < whole; given.text_bytes++) {
        measure(READ_NEWICK, TUSVLANE_TEXT);
        if (place != given.text_bytes)
            stop("not the place that was expected", "read_newick");
    }
    given.text_bytes = whole + 1;
    measure(READ_NEWICK, TUSVLANE_TEXT);
    given.text_bytes = whole;
    given.room = 0;
    measure(READ_NEWICK, TUSVLANE_ROOM);
    given.taxa = TAXA + 1;
    measure(READ_NEWICK, TUSVLANE_COUNT);
    given = kept;
}

static void put_row(uint8_t *table, size_t row, size_t u, size_t v)
{
    table[2 * row] = (uint8_t)(u < v ? u : v);
    table[2 * row + 1] = (uint8_t)(u < v ? v : u);
}

/* The number of a node, the inner ones counted from the last where turned. */
static size_t node(size_t v, int turned)
{
    return turned && v >= TAXA ? TAXA + ROWS - v : v;
}

/* Makes the table of a text. The inner nodes, the rows and the taxa are each
 * turned by a bit of a number. */
static void make_table(uint8_t *table, const outline *o, unsigned turns)
{
    uint8_t read[TABLE];
    put_text(o, turns & 1);
    if (tusvlane_read_newick(TAXA, given.text, given.text_bytes, read, TABLE)
            .refusal)
        stop("the text is no tree", "read_newick");
    for (size_t row = 0; row < ROWS; row++) {
        size_t u = node(read[2 * row], turns & 2);
        size_t v = node(read[2 * row + 1], turns & 2);
        put_row(table, turns & 4 ? ROWS - 1 - row : row, u, v);
    }
}

/* Writes the start of a field of the job; the place after it. */
static uint8_t *put_field(uint8_t *out, uint8_t tag, size_t length)
{
    *out++ = tag;
    *out++ = (uint8_t)(length >> 8);
    *out++ = (uint8_t)length;
    return out;
}

/* Writes the moves of the job: the present one, and the same again. */
static void put_moves(void)
{
    uint8_t *out = given.job + MOVES_AT;
    for (size_t i = 0; i < 2; i++) {
        out = put_field(out, 4, 4);
        memcpy(out, &given.move, 4);
        out += 4;
    }
}

/* Writes the job of what is given. */
static void put_job(void)
{
    uint8_t *out = put_field(given.job, 1, 1);
    *out++ = (uint8_t)given.taxa;
    out = put_field(out, 2, given.table_bytes);
    memcpy(out, given.table, TABLE);
    out += TABLE;
    for (size_t i = 0; i < PARTITIONS; i++) {
        out = put_field(out, 3, 8);
        for (int shift = 56; shift >= 0; shift -= 8)
            *out++ = (uint8_t)(given.partitions[i] >> shift);
    }
    put_moves();
}

/* Measures each step over the job: n, the table, the partitions, the moves and
 * the end. The move is an NNI, which made twice leaves the tree as it was. */
static void measure_job(void)
{
    lending kept = given;
    given.state = tusvlane_start();
    memset(given.table, 0, TABLE);
    memset(given.partitions, 0, sizeof given.partitions);
    for (size_t i = 0; i < 2 + PARTITIONS + 2 + 1; i++) {
        measure(STEP, 0);
        given = lent;
        given.state = stepped.next;
    }
    if (!stepped.ended || memcmp(given.table, kept.table, TABLE))
        stop("the job was not stepped through", "step");
    given = kept;
}

static int touches(size_t row, size_t v)
{
    return given.table[2 * row] == v || given.table[2 * row + 1] == v;
}

/* The end of a row that is not v, v being one of them. */
static uint8_t other_end(size_t row, size_t v)
{
    return (uint8_t)(given.table[2 * row] ^ given.table[2 * row + 1] ^ v);
}

/* The two rows at the inner node v other than one of them. */
static void other_rows(size_t v, size_t but, uint8_t *rows)
{
    for (size_t row = 0; row < ROWS; row++)
        if (row != but && touches(row, v))
            *rows++ = (uint8_t)row;
}

/* The row farthest from the end v of row a in the part of v; row a itself
 * where v is a taxon. Rows are gathered in the order of their distance. */
static uint8_t farthest(uint8_t a, uint8_t v)
{
    uint8_t rows[ROWS] = {a};
    uint8_t ends[ROWS] = {v};
    size_t count = 1;
    for (size_t i = 0; i < count; i++)
        for (size_t row = 0; row < ROWS; row++)
            if (row != rows[i] && touches(row, ends[i])) {
                rows[count] = (uint8_t)row;
                ends[count++] = other_end(row, ends[i]);
            }
    return rows[count - 1];
}

/* Measures the calls about a move, and the step over it in a job. */
static void measure_move(tusvlane_move move, uint64_t wanted)
{
    static const size_t about[] = {APPLY_MOVE, JUDGE_MOVE, JUDGE_ONE,
                                   LIST_MOVE, STEP};
    given.move = move;
    put_moves();
    measure_each(about, sizeof about / sizeof *about, wanted);
}

/* Measures every NNI about a row between two inner nodes. */
static void measure_nni(uint8_t e)
{
    uint8_t x[2];
    uint8_t y[2];
    other_rows(given.table[2 * e], e, x);
    other_rows(given.table[2 * e + 1], e, y);
    for (size_t i = 0; i < 4; i++) {
        uint8_t at_lower = x[i / 2];
        uint8_t at_upper = y[i % 2];
        measure_move((tusvlane_move){1, e, at_lower, at_upper}, 0);
        measure_move((tusvlane_move){1, e, at_upper, at_lower}, 0);
    }
}

/* Measures the moves of row a with the longest ways. */
static void measure_far(uint8_t a)
{
    uint8_t u = given.table[2 * a];
    uint8_t v = given.table[2 * a + 1];
    uint8_t b = farthest(a, u);
    uint8_t c = farthest(a, v);
    uint64_t first = touches(b, u) ? TUSVLANE_IDLE : 0;
    uint64_t second = touches(c, v) ? TUSVLANE_IDLE : 0;
    measure_move((tusvlane_move){3, a, b, c}, first & second);
    if (b != a)
        measure_move((tusvlane_move){2, a, b, 0}, first);
    if (c != a)
        measure_move((tusvlane_move){2, a, c, 0}, second);
}

/* Measures moves that are refused; row a is between two inner nodes. */
static void measure_wrong_moves(uint8_t a)
{
    measure_move((tusvlane_move){4, a, 0, 0}, TUSVLANE_KIND);
    measure_move((tusvlane_move){2, a, 0, 1}, TUSVLANE_KIND);
    measure_move((tusvlane_move){1, a, a, ROWS}, TUSVLANE_ROW);
    measure_move((tusvlane_move){2, ROWS, a, 0}, TUSVLANE_ROW);
    measure_move((tusvlane_move){3, a, ROWS, a}, TUSVLANE_ROW);
    measure_move((tusvlane_move){1, a, a, a}, TUSVLANE_MISFIT);
    measure_move((tusvlane_move){2, a, a, 0}, TUSVLANE_MISFIT);
    measure_move((tusvlane_move){3, a, a, a}, TUSVLANE_MISFIT);
}

/* Some row between two inner nodes. */
static uint8_t inner_row(void)
{
    uint8_t row = 0;
    while (given.table[2 * row] < TAXA)
        row++;
    return row;
}

/* Measures the moves of every row, and some that are refused. */
static void measure_moves(void)
{
    lending kept = given;
    for (uint8_t row = 0; row < ROWS; row++) {
        measure_far(row);
        if (given.table[2 * row] >= TAXA)
            measure_nni(row);
    }
    measure_wrong_moves(inner_row());
    given = kept;
}

/* Measures the calls that take a table, and the step over it in a job. All
 * have the same refusal. It is the first tree's that is wrong, then that of
 * the second. */
static void measure_table(uint64_t wanted)
{
    static const size_t taking[] = {CHECK_TREE, INDUCED_SPLITS, COMPARE,
                                    APPLY_MOVE, JUDGE_MOVE,     JUDGE_ONE,
                                    LIST_MOVE};
    lending kept = given;
    measure_each(taking, sizeof taking / sizeof *taking, wanted);
    memcpy(given.table, kept.second, TABLE);
    memcpy(given.second, kept.table, TABLE);
    measure(COMPARE, wanted);
    given = kept;
    put_job();
    given.state = (tusvlane_state){TABLE_AT, given.taxa, 0, 0};
    measure(STEP, wanted);
    given = kept;
}

/* Exchanges ends of two rows so that a ring comes off the tree. The degrees
 * stay right. */
static void cross_rows(void)
{
    lending kept = given;
    for (size_t r = 0; r < ROWS; r++)
        for (size_t s = 0; s < r; s++) {
            const uint8_t *was = kept.table;
            given = kept;
            put_row(given.table, r, was[2 * s], was[2 * r + 1]);
            put_row(given.table, s, was[2 * r], was[2 * s + 1]);
            if (tusvlane_check_tree(TAXA, given.table, TABLE) ==
                TUSVLANE_UNREACHED)
                return;
        }
    stop("no ring was found", "check_tree");
}

/* Measures the refusals 1 to 5. */
static void measure_wrong_tables(void)
{
    lending kept = given;
    given.taxa = TAXA + 1;
    measure_table(TUSVLANE_COUNT);
    given = kept;
    given.table_bytes -= 2;
    measure_table(TUSVLANE_LENGTH);
    given = kept;
    given.table[0] = 255;
    measure_table(TUSVLANE_ENDS);
    given = kept;
    memcpy(given.table, given.table + 2, 2);
    measure_table(TUSVLANE_DEGREE);
    given = kept;
    cross_rows();
    measure_table(TUSVLANE_UNREACHED);
    given = kept;
}

/* Measures the refusals of partitions and of room: 6, 16 and 11. */
static void measure_wrong_lists(void)
{
    static const size_t taking[] = {JUDGE_MOVE, LIST_MOVE, STEP,
                                    INDUCED_SPLITS};
    lending kept = given;
    given.partition_count = 0;
    measure_each(taking, 2, TUSVLANE_PARTITION);
    given = kept;
    memset(given.partitions, 0, sizeof given.partitions);
    measure_each(taking, 3, TUSVLANE_UNSEEN);
    given = kept;
    given.room = 0;
    measure_each(taking, 4, TUSVLANE_ROOM);
    given = kept;
}

/* Measures the calls that take one partition, over some of any size. */
static void measure_partitions(void)
{
    static const size_t taking[] = {INDUCED_SPLITS, COMPARE, JUDGE_ONE};
    lending kept = given;
    for (size_t i = 0; i < PARTITIONS; i++) {
        given.partition = given.partitions[i];
        measure_each(taking, 3, 0);
        given.partition = UINT64_MAX >> i;
        measure_each(taking, 3, 0);
    }
    given.partition = 0;
    measure_each(taking, 3, 0);
    given = kept;
}

/* Makes what is given: the table, the one to compare with, whose taxa are
 * turned, 64 partitions, of which the first has all taxa, and an NNI. */
static void make_given(const outline *o, unsigned turns)
{
    uint8_t x[2];
    uint8_t y[2];
    make_table(given.second, o, turns ^ 1);
    make_table(given.table, o, turns);
    for (size_t i = 0; i < PARTITIONS; i++)
        given.partitions[i] = UINT64_MAX - i * 0x9e3779b97f4a7c15u;
    uint8_t e = inner_row();
    other_rows(given.table[2 * e], e, x);
    other_rows(given.table[2 * e + 1], e, y);
    given.move = (tusvlane_move){1, e, x[0], y[0]};
    given.taxa = TAXA;
    given.table_bytes = TABLE;
    given.partition_count = PARTITIONS;
    given.room = ROOM;
    given.partition = UINT64_MAX;
    given.state = (tusvlane_state){MOVES_AT, TAXA, PARTITIONS, 0};
    put_job();
}

/* Measures all calls on one shape and says what each took at most. */
static void measure_shape(const char *name, const outline *o, size_t texts)
{
    for (size_t i = 0; i < CALLS; i++)
        calls[i].most = 0;
    for (unsigned turns = 0; turns < 8; turns++) {
        make_given(o, turns);
        measure_table(0);
        measure_partitions();
        measure_moves();
        measure_job();
        measure_wrong_tables();
        measure_wrong_lists();
    }
    for (size_t i = 0; i < 2 * texts; i++)
        measure_text(&o[i / 2], i % 2);
    measure(START, 0);
    printf("%s\n", name);
    for (size_t i = 0; i < CALLS; i++)
        printf("%zu bytes %s\n", calls[i].most, calls[i].name);
}

int main(void)
{
    measure_roads();
    measure_shape("even tree", even, sizeof even / sizeof *even);
    measure_shape("most uneven tree", uneven, sizeof uneven / sizeof *uneven);
    return 0;
}
