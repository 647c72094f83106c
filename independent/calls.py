"""Makes single calls from a source of chance, and says what each must answer.

A call is described as calls.c reads it: a function, eight numbers, four pieces of memory.
"""

import jobs
import making
import newick
import tusvlane

FUNCTIONS = ["check_tree", "induced_splits", "compare", "apply_move", "judge_move", "judge_one",
             "list_move", "start", "step"]
# compare-newick makes the calls of the last one, compare-calls all the others.
NUMBERED = FUNCTIONS + ["read_newick"]
LARGEST = 2 ** 64 - 1
HUGE = [2 ** 31, 2 ** 32, 2 ** 32 + 6, 2 ** 63 - 1, 2 ** 63, LARGEST - 1, LARGEST]


class Call:
    """The description of one call; what a function does not take is 0 or empty."""

    def __init__(self, function, n=0, value=0, place=0, move=(0, 0, 0, 0), state=(0, 0, 0, 0),
                 first=b"", table=b"", partitions=(), out=b""):
        """Keeps the arguments under the names of the header."""
        self.function = function
        self.n = n
        self.value = value
        self.place = place
        self.move = tuple(move)
        self.state = tuple(state)
        self.first = first
        self.table = table
        self.partitions = list(partitions)
        self.out = out

    def numbers(self):
        """The eight numbers of the description."""
        move = int.from_bytes(bytes(self.move), "little")
        return [self.n, self.value, self.place, move] + list(self.state)

    def pieces(self):
        """The four pieces of memory."""
        return [self.first, self.table, packed(self.partitions), self.out]

    def described(self):
        """The description as bytes."""
        pieces = self.pieces()
        head = [NUMBERED.index(self.function) + 1] + self.numbers()
        return packed(head + [len(piece) for piece in pieces]) + b"".join(pieces)


def packed(numbers):
    """Numbers as 64 bits each, low byte first."""
    return b"".join(number.to_bytes(8, "little") for number in numbers)


# What a call must answer.

class Expected:
    """The numbers of the answer, and the memory after the call."""

    def __init__(self, call):
        """Starts from an answer of zeros and memory as lent."""
        self.numbers = [0] * 8
        self.pieces = call.pieces()

    def write(self, piece, at, data):
        """Puts bytes into a piece and leaves the rest of it."""
        old = self.pieces[piece]
        self.pieces[piece] = old[:at] + data + old[at + len(data):]

    def as_bytes(self):
        """What calls.c must write."""
        return packed([0] + self.numbers) + b"".join(self.pieces)


FIRST, TABLE, PARTITIONS, OUT = range(4)


def expect_check_tree(call, expected):
    """A tree, or a refusal."""
    tusvlane.check_tree(call.n, call.table)


def expect_induced_splits(call, expected):
    """The splits at the start of the output, and how many."""
    numbers = tusvlane.induced_splits(call.n, call.table, call.value, len(call.out) // 8)
    expected.numbers[1] = len(numbers)
    expected.write(OUT, 0, packed(numbers))


def expect_compare(call, expected):
    """The distance and the smallest split that lacks."""
    expected.numbers[1:3] = tusvlane.compare(call.n, call.first, call.table, call.value)


def expect_apply_move(call, expected):
    """The table after the move."""
    expected.write(TABLE, 0, tusvlane.apply_move(call.n, call.table, call.move))


def expect_judge_move(call, expected):
    """The distances at the start of the output, and how many are 0."""
    found = tusvlane.judge_move(call.n, call.table, call.partitions, call.move,
                                len(call.out) // 8)
    expected.numbers[1] = found.count(0)
    expected.write(OUT, 0, packed(found))


def expect_judge_one(call, expected):
    """The distance."""
    expected.numbers[1] = tusvlane.judge_one(call.n, call.table, call.value, call.move)


def expect_list_move(call, expected):
    """The lines from the place onward, the place after them, and the table after the move."""
    after, lines = tusvlane.list_move(call.n, call.table, call.partitions, call.move,
                                      call.value, len(call.out) - call.place)
    expected.numbers[1] = call.place + len(lines)
    expected.write(TABLE, 0, after)
    expected.write(OUT, call.place, lines)


def expect_start(call, expected):
    """The state before the first field: nothing read."""


def expect_step(call, expected):
    """The next state, the lines, and what the field changed."""
    answer = tusvlane.step(call.first, call.state, call.table, call.partitions, len(call.out))
    if answer is None:
        expected.numbers[1] = 1
        return
    known, lines = answer
    parts = len(known.partitions)
    expected.numbers[3:] = [len(lines), known.at, known.taxa, parts, known.moves]
    expected.write(TABLE, 0, known.table)
    expected.write(PARTITIONS, 0, packed(known.partitions))
    expected.write(OUT, 0, lines)


def expect_read_newick(call, expected):
    """The table at the start of the output, or a refusal and its place."""
    answer = newick.read(call.n, call.first, len(call.out))
    if answer[0] == "table":
        expected.write(OUT, 0, answer[1])
    else:
        numbers = answer[1:]
        expected.numbers[:len(numbers)] = numbers


EXPECT = {
    "check_tree": expect_check_tree,
    "induced_splits": expect_induced_splits,
    "compare": expect_compare,
    "apply_move": expect_apply_move,
    "judge_move": expect_judge_move,
    "judge_one": expect_judge_one,
    "list_move": expect_list_move,
    "start": expect_start,
    "step": expect_step,
    "read_newick": expect_read_newick,
}


def expect(call):
    """The answer and memory that the call must give; a refusal leaves all as it was."""
    expected = Expected(call)
    try:
        EXPECT[call.function](call, expected)
    except tusvlane.Refused as refused:
        expected = Expected(call)
        expected.numbers[0] = refused.number
        if call.function == "step":
            expected.numbers[2] = refused.place
    return expected


# Arguments.

def some_bytes(pick, length):
    """Bytes of chance, so that a write that should not be is seen."""
    return bytes(pick.getrandbits(8) for _ in range(length))


def any_count(pick, n):
    """A number of taxa that is mostly not the tree's."""
    return pick.choice([0, 1, 2, 3, 65, 66, 127, 128, 255, 256, n + 256, n - 1, n + 1] + HUGE)


def any_length(pick, table):
    """The table with another length."""
    return pick.choice([b"", table[:1], table[:-1], table[:-2], table + b"\0", table + b"\0\1",
                        table[:2 * pick.randrange(len(table) // 2)],
                        table + some_bytes(pick, pick.randrange(300))])


def tree_arguments(pick, faulty):
    """A number of taxa, a tree, and the table to be lent: the tree or a faulty one."""
    n = making.make_count(pick)
    tree = making.make_tree(pick, n)
    said, table = n, tree
    if faulty:
        way = pick.randrange(8)
        if way >= 3:
            table = making.wrong_table(pick, n, table)
        if way in (0, 3):
            said = any_count(pick, n)
        if way in (1, 4):
            table = any_length(pick, table)
        if way == 2:
            table = making.unreachable_table(pick, n)
    return n, tree, said, table


def chance(pick, percent):
    """True so many times in a hundred."""
    return pick.random() * 100 < percent


def any_partition(pick, n):
    """A partition, now and then one with a foreign taxon."""
    if chance(pick, 12):
        return making.foreign_partition(pick, n)
    return making.make_partition(pick, n)


def any_partitions(pick, n):
    """A list of partitions, now and then too short, too long or with a foreign taxon."""
    count = None
    if chance(pick, 10):
        count = pick.choice([0, 0, 63, 64, 65, 65, 66, 80])
    if count == 0:
        return []
    partitions = making.make_partitions(pick, n, count)
    if chance(pick, 8):
        partitions[pick.randrange(len(partitions))] = making.foreign_partition(pick, n)
    return partitions


def any_move(pick, n, tree):
    """A move: mostly an accepted one, else one refused with 7 to 10, or any."""
    if chance(pick, 60):
        return making.accepted_move(pick, n, tree)[0]
    if chance(pick, 70):
        return making.refused_move(pick, n, tree, pick.randint(7, 10))
    return pick.choice([making.wild_move(pick, n), tuple(some_bytes(pick, 4))])


def any_room(pick, needed):
    """How much output is lent: exactly enough, one too few, more, none."""
    return pick.choice([needed, needed, max(needed - 1, 0), needed + 1,
                        needed + pick.randrange(20), 0, pick.randrange(needed + 1)])


# Calls.

def make_check_tree(pick):
    """A table, more often wrong than right."""
    _, _, n, table = tree_arguments(pick, chance(pick, 70))
    return Call("check_tree", n=n, table=table)


def make_induced_splits(pick):
    """A tree, a partition, and output of any length."""
    n, _, said, table = tree_arguments(pick, chance(pick, 20))
    partition = any_partition(pick, n)
    size = bin(partition).count("1")
    room = any_room(pick, max(2 * size - 3, int(size == 2)))
    return Call("induced_splits", n=said, table=table, value=partition,
                out=some_bytes(pick, 8 * room))


def second_tree(pick, n, tree):
    """A second tree: the same numbered anew, some moves away, or any."""
    way = pick.randrange(4)
    if way == 0:
        return making.same_tree(pick, n, tree)
    if way == 1:
        return making.make_tree(pick, n)
    if way == 2:
        return making.make_tree(pick, making.make_count(pick))
    return making.near_tree(pick, n, tree)


def make_compare(pick):
    """Two trees and a partition; one, both or none of the trees faulty."""
    n, tree, said, first = tree_arguments(pick, chance(pick, 20))
    second = second_tree(pick, n, tree)
    if chance(pick, 20):
        second = pick.choice([making.wrong_table(pick, n, tree), any_length(pick, tree)])
    return Call("compare", n=said, first=first, table=second, value=any_partition(pick, n))


def make_divided_list(pick):
    """A tree, a partition made for one of its splits, and output that is mostly enough."""
    n, tree, _, partition = making.divided_trees(pick)
    room = 2 * n - 3 if chance(pick, 90) else pick.randrange(2 * n - 3)
    return Call("induced_splits", n=n, table=tree, value=partition,
                out=some_bytes(pick, 8 * room))


def make_divided_comparison(pick):
    """Two trees and a partition made for a split that the second lacks."""
    n, first, second, partition = making.divided_trees(pick)
    return Call("compare", n=n, first=first, table=second, value=partition)


def make_apply_move(pick):
    """A tree and a move."""
    n, tree, said, table = tree_arguments(pick, chance(pick, 15))
    return Call("apply_move", n=said, table=table, move=any_move(pick, n, tree))


def make_judge_move(pick):
    """A tree, partitions, a move, and output of any length."""
    n, tree, said, table = tree_arguments(pick, chance(pick, 15))
    partitions = any_partitions(pick, n)
    room = any_room(pick, len(partitions))
    return Call("judge_move", n=said, table=table, partitions=partitions,
                move=any_move(pick, n, tree), out=some_bytes(pick, 8 * room))


def make_judge_one(pick):
    """A tree, a partition and a move."""
    n, tree, said, table = tree_arguments(pick, chance(pick, 15))
    return Call("judge_one", n=said, table=table, value=any_partition(pick, n),
                move=any_move(pick, n, tree))


def any_number(pick):
    """A move's number, of each length that a number can have."""
    return pick.choice([0, 1, 9, 10, 99, 100, 65535, 65536, 10 ** pick.randrange(20),
                        10 ** pick.randrange(20) - 1, pick.getrandbits(64)] + HUGE)


def lines_length(call):
    """How long the lines of the call are; a few bytes where it is refused anyway."""
    try:
        _, lines = tusvlane.list_move(call.n, call.table, call.partitions, call.move,
                                      call.value, float("inf"))
    except tusvlane.Refused:
        return 20
    return len(lines)


def place_lines(pick, call):
    """Lends the call an output and a place, so that the lines fit closely, or do not."""
    length = lines_length(call)
    place = pick.choice([0, 0, 1, pick.randrange(200), pick.randrange(9000)])
    end = pick.choice([place + length] * 3 + [place + length - 1] * 2
                      + [place + length + 1, place + length + pick.randrange(100), place,
                         place + pick.randrange(length), max(place - 1, 0), 0])
    if chance(pick, 8):
        place = pick.choice([end, end + 1, end + pick.randrange(1000),
                             LARGEST - length, LARGEST - length + 1] + HUGE)
    call.place = place
    call.out = some_bytes(pick, end)


def make_list_move(pick):
    """A tree, partitions, a move, its number, and output from a place onward."""
    n, tree, said, table = tree_arguments(pick, chance(pick, 15))
    call = Call("list_move", n=said, table=table, partitions=any_partitions(pick, n),
                move=any_move(pick, n, tree), value=any_number(pick))
    place_lines(pick, call)
    return call


def make_start(pick):
    """No argument."""
    return Call("start")


# Steps.

def walked(job, most):
    """What is known of a job after so many fields, or before the one that is refused."""
    known = tusvlane.Known()
    try:
        for _ in range(most):
            if tusvlane.over(job, known):
                break
            known = tusvlane.placed_field(job, known, float("inf"))[0]
    except tusvlane.Refused:
        pass
    return known


def lent_table(pick, known):
    """The known table in memory of any length that holds it, the rest of chance."""
    room = max(pick.choice([250, len(known.table), len(known.table) + pick.randrange(30)]),
               len(known.table))
    if not known.table and known.at == 4:
        room = pick.choice([250, 2 * tusvlane.row_count(known.taxa)])
    return known.table + some_bytes(pick, room - len(known.table))


def lent_partitions(pick, known):
    """The known partitions in a list that holds them, the rest of chance."""
    count = len(known.partitions)
    room = max(pick.choice([64, count, count + 1, count + 1, count + pick.randrange(10)]), count)
    return known.partitions + [pick.getrandbits(64) for _ in range(room - count)]


def step_from(pick, job, known):
    """A step from what is known, with memory that is enough or hardly enough."""
    state = (known.at, known.taxa, len(known.partitions), known.moves)
    return Call("step", first=job, state=state, table=lent_table(pick, known),
                partitions=lent_partitions(pick, known))


def any_step(pick):
    """A step over any field of a job, right or wrong."""
    job = pick.choice(jobs.WAYS)(pick)
    most = pick.choice([0, 1, 2, 3, 4, pick.randrange(20), len(job)])
    return step_from(pick, job, walked(job, most))


def move_step(pick):
    """A step over a move, with none or some moves before it."""
    n = making.make_count(pick)
    parts = jobs.Parts(pick, n, making.make_partitions(pick, n), pick.randint(0, 5))
    before = b"".join(parts.fields())
    move = any_move(pick, parts.n, parts.last)
    after = pick.choice([b"", b"", jobs.move_field(making.wild_move(pick, parts.n))])
    known = walked(before, len(before))
    return step_from(pick, before + jobs.move_field(move) + after, known)


def any_offset(pick, fields):
    """An offset in a job of these fields: the start of one, near it, or the end and beyond."""
    starts = [0]
    for each in fields:
        starts.append(starts[-1] + len(each))
    length = starts.pop()
    tags = [each[0] for each in fields]
    over = next((start for start, tag in zip(starts, tags) if start > 4 and tag != 3), length)
    return pick.choice([over] * 6 + [0, 4, 4, 4, 5, 5, 6, pick.choice(starts),
                                     pick.choice(starts), starts[-1], length, length, length + 1,
                                     length + pick.randrange(1000), pick.randint(4, length)])


def unseen_step(pick):
    """A step from any offset, after any number of moves, on a list that has all taxa or not."""
    n = making.make_count(pick)
    held = jobs.covering_or_lacking(pick, n)
    parts = jobs.Parts(pick, n, pick.choice([held, held[:1], held[:3]]), pick.randrange(3))
    fields = parts.fields() + [pick.choice(jobs.FOLLOWERS)(pick, parts)]
    at = any_offset(pick, [each for each in fields if each])
    job = b"".join(fields)
    if chance(pick, 20):
        job = job[:at + pick.choice([0, 0, 1, 2])]
    taken = pick.choice([len(held)] * 4 + [len(held) - 1, pick.randint(0, len(held))])
    if n < 64 and chance(pick, 15):
        held[pick.randrange(len(held))] |= 1 << pick.randint(n, 63)
    table = parts.table
    if chance(pick, 20):
        table = making.wrong_table(pick, n, table)
    more = [pick.getrandbits(64) for _ in range(pick.choice([0, 0, 1, 10]))]
    return Call("step", first=job, state=(at, n, taken, pick.choice([0, 0, 0, 1, 1, 2, 65535])),
                table=table, partitions=held + more)


# Steps with a table lent too short, or just long enough.

def wanted_bytes(n):
    """How many bytes the table of n taxa has; for fewer than two, none."""
    return max(2 * tusvlane.row_count(n), 0)


def table_room(pick, wanted):
    """How many bytes are lent for a table of so many: too few, none, exactly enough, more."""
    fewer = pick.choice([wanted - 1, wanted - 1, wanted - 2, wanted // 2, 1, 0, 0,
                         pick.randrange(wanted + 1), pick.randrange(wanted + 1)])
    enough = pick.choice([wanted, wanted, wanted + 1, wanted + pick.randrange(30), 250])
    return max(pick.choice([fewer, fewer, enough]), 0)


def right_table(pick, n, room):
    """The field of a tree."""
    return jobs.table_field(making.make_tree(pick, n))


def other_tag(pick, n, room):
    """The field of a tree under another tag, or a field of another kind."""
    whole = right_table(pick, n, room)
    other = bytes([pick.choice([0, 1, 3, 4, 5, 255])]) + whole[1:]
    return pick.choice([other, other, jobs.count_field(n),
                        jobs.partition_field(making.make_partition(pick, n)),
                        jobs.move_field(making.wild_move(pick, n))])


def other_length(pick, n, room):
    """Another stated length, often that of the lent table; the content that long or not."""
    table = making.make_tree(pick, n)
    right = len(table)
    stated = pick.choice([room, room, right - 4, right - 1, right + 1, right + 4, 0, right ^ 256,
                          65535, pick.randrange(65536)])
    if stated == right:
        return jobs.table_field(making.make_tree(pick, pick.choice([max(n - 1, 4), n + 1])))
    content = pick.choice([table, table[:stated], table + bytes(max(min(stated, 999) - right, 0))])
    return jobs.field(tusvlane.TAG_TABLE, content, stated)


def no_tree(pick, n, room):
    """A table that is refused with 3, 4 or 5, each as likely."""
    return jobs.table_field(making.refused_table(pick, n, pick.randint(3, 5)))


TABLE_FIELDS = [right_table] * 4 + [other_tag] + [other_length] * 2 + [no_tree] * 5


def table_and_rest(pick, n, room):
    """The field at offset 4 and what follows it, or the field cut short.

    It is cut in its length, where the lent table ends, or anywhere."""
    whole = pick.choice(TABLE_FIELDS)(pick, n, room)
    if chance(pick, 25):
        last = len(whole) - 1
        return whole[:min(pick.choice([0, 0, 1, 2, 2, 3, 3 + room, last, last,
                                       pick.randint(1, last)]), last)]
    partition = jobs.partition_field(making.make_partition(pick, n))
    return whole + pick.choice([b"", partition, partition, b"\3", some_bytes(pick, 20)])


def table_field_step(pick):
    """A step at offset 4: the table is right or not, and fits or not."""
    n = making.make_count(pick)
    room = table_room(pick, wanted_bytes(n))
    job = jobs.count_field(n) + table_and_rest(pick, n, room)
    partitions = making.make_partitions(pick, n)
    held = pick.choice([0] * 6 + [1, len(partitions), len(partitions), len(partitions) + 1])
    moves = pick.choice([0] * 8 + [1, 65535, 65536])
    return Call("step", first=job, state=(4, n, held, moves), table=some_bytes(pick, room),
                partitions=partitions)


def count_field_step(pick):
    """A step at offset 0, now and then 1 to 3, where no table is held or read."""
    n = making.make_count(pick)
    taxa = pick.choice([0, n, n, n, n, 64, 64, pick.randrange(65), 65])
    room = table_room(pick, wanted_bytes(pick.choice([n, taxa, taxa])))
    field = jobs.count_field(pick.choice([n] * 6 + [0, 3, 65, 255]))
    field = pick.choice([field] * 6 + [b"\2" + field[1:], field[:pick.randrange(4)]])
    if len(field) == 4:
        field += table_and_rest(pick, n, room)
    at = pick.choice([0] * 8 + [1, 2, 3])
    partitions = making.make_partitions(pick, n)
    held = pick.choice([0, 0, 0, len(partitions), len(partitions) + 1])
    return Call("step", first=field, state=(at, taxa, held, 0), table=some_bytes(pick, room),
                partitions=partitions)


def held_table_step(pick):
    """A step from above offset 4 in most cases, the table it holds lent too short or not."""
    job = pick.choice(jobs.WAYS)(pick)
    known = walked(job, pick.choice([2, 2, 3, 3, 4, pick.randint(2, 20), len(job)]))
    if chance(pick, 15):
        job = job[:known.at + pick.choice([0, 0, -1, 1, 2])]
    call = step_from(pick, job, known)
    room = table_room(pick, wanted_bytes(known.taxa))
    call.table = known.table[:room] + some_bytes(pick, room - min(len(known.table), room))
    return call


def table_step(pick):
    """A step with a table lent too short or just long enough, most often at the table itself."""
    make = pick.choice([table_field_step] * 5 + [count_field_step] * 2 + [held_table_step] * 2)
    return make(pick)


def lend_step_output(pick, call):
    """Lends output: enough, exactly enough for the lines, one too few, or none."""
    try:
        answer = tusvlane.step(call.first, call.state, call.table, call.partitions, float("inf"))
    except tusvlane.Refused:
        answer = None
    needed = len(answer[1]) if answer else 0
    room = pick.choice([8192, needed, needed, max(needed - 1, 0), needed + 1, 0,
                        pick.randrange(needed + 1)])
    call.out = some_bytes(pick, room)


def other_state(pick, call):
    """Changes one number of the state to one that need not fit the job."""
    at, taxa, parts, moves = call.state
    length, count = len(call.first), len(call.partitions)
    way = pick.randrange(4)
    if way == 0:
        at = pick.choice([0, 1, 2, 3, 4, 5, 6, 7, at + 1, max(at - 1, 0), max(at - 7, 0), length,
                          length + 1, max(length - 1, 0), pick.randrange(length + 9)] + HUGE)
    elif way == 1:
        taxa = pick.choice([0, 1, 2, 3, 4, taxa + 1, max(taxa - 1, 0), 63, 64, 65,
                            pick.randrange(70)] + HUGE)
    elif way == 2:
        parts = pick.choice([0, 0, 1, max(parts - 1, 0), parts + 1, count, count + 1, 63, 64, 65,
                             pick.randrange(count + 1)] + HUGE)
    else:
        moves = pick.choice([0, 0, 1, 9, 99, 65534, 65535, 65535, 65536, 65537] + HUGE)
    call.state = tuple(min(number, LARGEST) for number in (at, taxa, parts, moves))


def other_memory(pick, call):
    """Lends other memory than the steps before left."""
    way = pick.randrange(6)
    if way == 0:
        call.table = call.table[:pick.randrange(len(call.table) + 1)]
    elif way == 1 and 4 <= call.state[1] <= 64 and len(call.table) >= 10:
        n = call.state[1]
        tree = making.make_tree(pick, n)
        other = pick.choice([tree, making.wrong_table(pick, n, tree)])
        call.table = other + call.table[len(other):]
    elif way == 2:
        call.partitions = call.partitions[:pick.randrange(len(call.partitions) + 1)]
    elif way == 3 and call.partitions:
        call.partitions[pick.randrange(len(call.partitions))] = pick.getrandbits(64)
    elif way == 4:
        count = pick.choice([64, 65, 66, 70])
        more = count - len(call.partitions)
        if more > 0:
            n = min(max(call.state[1], 4), 64)
            call.partitions += making.make_partitions(pick, n, more)
    elif way == 5:
        taxon = pick.choice([0, 1, max(call.state[1] - 1, 0) % 64, pick.randrange(64)])
        call.partitions = [partition & ~(1 << taxon) for partition in call.partitions]


def many_held(pick):
    """A move or partition field with 63 to 70 partitions held, as many as lent or fewer."""
    n = making.make_count(pick)
    parts = jobs.Parts(pick, n, making.make_partitions(pick, n, 1), 1)
    fields = parts.fields()
    held = pick.randint(63, 70)
    at = len(fields[0]) + len(fields[1]) + pick.choice([0, len(fields[2])])
    state = (at, n, held, pick.choice([0, 0, 1]))
    return Call("step", first=b"".join(fields), state=state, table=parts.table,
                partitions=making.make_partitions(pick, n, held + pick.choice([0, 0, 1])))


def long_step(pick):
    """A step over a job that is too long or as long as it can be, from any state."""
    job = pick.choice([jobs.too_long, jobs.too_long, jobs.as_long_as_allowed])(pick)
    at = pick.choice([0, 4, 65534, 65535, 65536])
    state = (at, pick.choice([0, 6, 6, 6, 70]), pick.choice([0, 0, 1, 64]), 0)
    return Call("step", first=job, state=state, partitions=[pick.choice([0, 31, 62, 63])] * 64,
                table=some_bytes(pick, pick.choice([250, 250, 18, 17, 0])))


def make_step(pick):
    """A step: one that a job has, or with a state or memory that no job has."""
    if chance(pick, 5):
        call = long_step(pick)
    elif chance(pick, 5):
        call = many_held(pick)
    else:
        call = pick.choice([any_step] * 3 + [move_step] * 3 + [unseen_step] * 2
                           + [table_step] * 3)(pick)
        for _ in range(pick.choice([0, 0, 0, 1, 1, 2])):
            pick.choice([other_state, other_memory])(pick, call)
    lend_step_output(pick, call)
    return call


MAKERS = ([make_check_tree] * 10 + [make_induced_splits] * 12 + [make_compare] * 12
          + [make_apply_move] * 14 + [make_judge_move] * 15 + [make_judge_one] * 10
          + [make_list_move] * 20 + [make_start] + [make_step] * 30
          + [make_divided_list] * 8 + [make_divided_comparison] * 8)


def make_call(pick):
    """Any call."""
    return pick.choice(MAKERS)(pick)
