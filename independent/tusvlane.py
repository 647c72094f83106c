"""The rules for trees, moves, verdicts and jobs, by definition: split sets as sets.

Tables, jobs and listings are bytes. A partition is a number: bit i stands for taxon i.
"""

import functools

LARGEST_JOB = 65535
MOST_PARTITIONS = 64
FEWEST_SCORED = 4

NNI, SPR, TBR = 1, 2, 3
TAG_COUNT, TAG_TABLE, TAG_PARTITION, TAG_MOVE = 1, 2, 3, 4
FIELD_LENGTHS = {TAG_COUNT: 1, TAG_PARTITION: 8, TAG_MOVE: 4}


class Refused(Exception):
    """A refusal: its number, and its place where the document gives one."""

    def __init__(self, number, place=0):
        """Keeps the number and the place."""
        super().__init__(number, place)
        self.number = number
        self.place = place


def row_count(n):
    """How many rows a tree of n taxa has."""
    return 2 * n - 3


def node_count(n):
    """How many nodes a tree of n taxa has; the last one is 2n-3."""
    return 2 * n - 2


def rows_of(table):
    """The table as a list of rows, a row being its two ends."""
    return [(table[i], table[i + 1]) for i in range(0, len(table), 2)]


def table_of(rows):
    """The rows as bytes, each with the smaller end first."""
    return bytes(end for row in rows for end in sorted(row))


def rows_at(n, rows):
    """For each node the numbers of its rows, ascending."""
    at = [[] for _ in range(node_count(n))]
    for number, row in enumerate(rows):
        for end in row:
            at[end].append(number)
    return at


def other_end(row, end):
    """The end of the row that is not the given one."""
    return row[1] if row[0] == end else row[0]


# Validity of a table.

def check_count(n):
    """Refusal 1: the taxon count."""
    if not 4 <= n <= 64:
        raise Refused(1)


def check_table(n, table):
    """Refusals 2 to 5, in this order, for a count that is right."""
    if len(table) != 2 * row_count(n):
        raise Refused(2)
    rows = rows_of(table)
    if any(first >= second or second > 2 * n - 3 for first, second in rows):
        raise Refused(3)
    at = rows_at(n, rows)
    if any(len(at[node]) != (1 if node < n else 3) for node in range(node_count(n))):
        raise Refused(4)
    if len(reached_nodes(rows, at, 0, None)) != node_count(n):
        raise Refused(5)


def check_tree(n, table):
    """Refusals 1 to 5: is the table a tree of n taxa?"""
    check_count(n)
    check_table(n, table)


def reached_nodes(rows, at, start, removed):
    """The nodes that can be reached from start without the removed row."""
    reached = {start}
    waiting = [start]
    while waiting:
        node = waiting.pop()
        for number in at[node]:
            far = other_end(rows[number], node)
            if number != removed and far not in reached:
                reached.add(far)
                waiting.append(far)
    return reached


# Splits.

@functools.lru_cache(maxsize=8)
def sides(n, table):
    """For each row of a tree, the taxa on the side of its second end without the row."""
    rows = rows_of(table)
    at = rows_at(n, rows)
    known = {}

    def beyond(number, node):
        """The taxa that hang from the node when the row is removed."""
        if (number, node) not in known:
            taxa = 1 << node if node < n else 0
            for next_row in at[node]:
                if next_row != number:
                    taxa |= beyond(next_row, other_end(rows[next_row], node))
            known[number, node] = taxa
        return known[number, node]

    return [beyond(number, row[1]) for number, row in enumerate(rows)]


def set_size(taxa):
    """How many taxa a set of taxa has."""
    return bin(taxa).count("1")


def side_without_lowest(one, other):
    """Of the two sides of a split, the one that does not hold the lowest taxon."""
    both = one | other
    lowest = both & -both
    return other if one & lowest else one


def split_number(one, other):
    """The number of a split: its smaller side; of equal sides, the one without the lowest."""
    if set_size(one) == set_size(other):
        return side_without_lowest(one, other)
    return min(one, other, key=set_size)


def cut_sides(n, table, partition):
    """For each row its two sides cut down to the partition, where neither is empty."""
    pairs = [(side & partition, partition & ~side) for side in sides(n, table)]
    return [(one, other) for one, other in pairs if one and other]


@functools.lru_cache(maxsize=512)
def split_set(n, table, partition):
    """The induced split set over the partition, each split as its number."""
    return {split_number(one, other) for one, other in cut_sides(n, table, partition)}


def distance_of_sets(first, second):
    """How many splits are in exactly one of the two sets."""
    return len(first ^ second)


def check_partition(n, partition):
    """Refusal 6 for one partition: a taxon n or above."""
    if partition >> n:
        raise Refused(6)


def check_partitions(n, partitions):
    """Refusal 6 for a list: none, more than 64, or one with a taxon n or above."""
    if not 1 <= len(partitions) <= MOST_PARTITIONS:
        raise Refused(6)
    for partition in partitions:
        check_partition(n, partition)


def unseen_taxa(n, partitions):
    """The taxa of 0 to n-1 that are in none of the partitions."""
    return {taxon for taxon in range(n)
            if not any(partition >> taxon & 1 for partition in partitions)}


def check_seen(n, partitions, place=0):
    """Refusal 16 for a list: a taxon is in no partition."""
    if unseen_taxa(n, partitions):
        raise Refused(16, place)


def induced_splits(n, table, partition, room):
    """The list of induced splits, ascending; 11 when the room is too small."""
    check_tree(n, table)
    check_partition(n, partition)
    numbers = sorted(split_set(n, table, partition))
    if len(numbers) > room:
        raise Refused(11)
    return numbers


def compare(n, first, second, partition):
    """The distance, and the smallest split of the first tree that the second lacks, or 0."""
    check_count(n)
    check_table(n, first)
    check_table(n, second)
    check_partition(n, partition)
    ours = split_set(n, first, partition)
    theirs = split_set(n, second, partition)
    return distance_of_sets(ours, theirs), min(ours - theirs, default=0)


# Moves.

def part_of(n, rows, end, removed):
    """The numbers of the rows in the part of the end, without the removed row."""
    at = rows_at(n, rows)
    nodes = reached_nodes(rows, at, end, removed)
    return {number for node in nodes for number in at[node]} - {removed}


def moved_nni(n, rows, e, x, y):
    """The rows after an NNI: the ends that x and y have on e are exchanged."""
    if min(rows[e]) < n or e in (x, y) or x == y:
        raise Refused(9)
    x_ends = set(rows[x]) & set(rows[e])
    y_ends = set(rows[y]) & set(rows[e])
    if not x_ends or not y_ends or x_ends == y_ends:
        raise Refused(9)
    (x_end,), (y_end,) = x_ends, y_ends
    after = list(rows)
    after[x] = (other_end(rows[x], x_end), y_end)
    after[y] = (other_end(rows[y], y_end), x_end)
    return after


def regrafted(n, rows, a, p, target):
    """The rows after the end p of row a is moved to the target by the SPR rule."""
    f, g = sorted(number for number in rows_at(n, rows)[p] if number != a)
    r = other_end(rows[f], p)
    s = other_end(rows[g], p)
    c, d = sorted(rows[target])
    after = list(rows)
    after[f] = (r, s)
    after[target] = (c, p)
    after[g] = (p, d)
    return after


def moved_spr(n, rows, a, b):
    """The rows after an SPR: the part without b is moved to b."""
    if a == b:
        raise Refused(9)
    smaller, larger = sorted(rows[a])
    p = smaller if b in part_of(n, rows, smaller, a) else larger
    if p in rows[b]:
        raise Refused(10)
    return regrafted(n, rows, a, p, b)


def end_stays(n, rows, a, end, target):
    """Whether this end of a TBR stays; 9 when the target does not fit it."""
    if end < n:
        if target != a:
            raise Refused(9)
        return True
    if target not in part_of(n, rows, end, a):
        raise Refused(9)
    return end in rows[target]


def moved_tbr(n, rows, a, b, c):
    """The rows after a TBR: each end of a that does not stay moves to its target."""
    ends = sorted(rows[a])
    targets = [b, c]
    stays = [end_stays(n, rows, a, end, target) for end, target in zip(ends, targets)]
    if all(stays):
        raise Refused(10)
    after = rows
    for end, target, stay in zip(ends, targets, stays):
        if not stay:
            after = regrafted(n, after, a, end, target)
    return after


def check_move(n, move):
    """Refusals 7 and 8: the kind, then the row numbers that the move uses."""
    kind, first, second, third = move
    if kind not in (NNI, SPR, TBR) or (kind == SPR and third != 0):
        raise Refused(7)
    used = (first, second) if kind == SPR else (first, second, third)
    if max(used) > 2 * n - 4:
        raise Refused(8)


def moved(n, table, move):
    """The table after the move, for a table that is a tree; refusals 7 to 10."""
    check_move(n, move)
    kind, first, second, third = move
    rows = rows_of(table)
    if kind == NNI:
        return table_of(moved_nni(n, rows, first, second, third))
    if kind == SPR:
        return table_of(moved_spr(n, rows, first, second))
    return table_of(moved_tbr(n, rows, first, second, third))


def apply_move(n, table, move):
    """The table after the move; refusals 1 to 5 and 7 to 10."""
    check_tree(n, table)
    return moved(n, table, move)


# Verdicts.

def distances(n, before, after, partitions):
    """For each partition the distance of the trees before and after a move."""
    return [
        distance_of_sets(split_set(n, before, partition), split_set(n, after, partition))
        for partition in partitions
    ]


def judge_move(n, table, partitions, move, room):
    """The distance for each partition; refusals 1 to 11, with 16 between 6 and 7."""
    check_tree(n, table)
    check_partitions(n, partitions)
    check_seen(n, partitions)
    answer = distances(n, table, moved(n, table, move), partitions)
    if len(answer) > room:
        raise Refused(11)
    return answer


def judge_one(n, table, partition, move):
    """The distance that the move makes over one partition; refusals 1 to 10."""
    check_tree(n, table)
    check_partition(n, partition)
    return distances(n, table, moved(n, table, move), [partition])[0]


def terrace_class(s, k):
    """The name of the bin in which s of k partitions are the same."""
    if s == 0:
        return "none"
    if s == k:
        return "full"
    return "pt%d" % min(i for i in range(1, 11) if 10 * s <= i * k)


def saved_count(partitions, found):
    """How many partitions count as saved: those that are the same and have four or more taxa."""
    return sum(1 for partition, distance in zip(partitions, found)
               if distance == 0 and set_size(partition) >= FEWEST_SCORED)


def move_lines(number, partitions, found):
    """One move's lines, from its partitions and the distances found for them."""
    lines = []
    for place, distance in enumerate(found, 1):
        word = "same" if distance == 0 else "changed"
        lines.append("%d %d %s %d\n" % (number, place, word, distance))
    name = terrace_class(found.count(0), len(found))
    lines.append("%d saved %d %s\n" % (number, saved_count(partitions, found), name))
    return "".join(lines).encode("ascii")


def list_move(n, table, partitions, move, number, room):
    """The table after the move, and its lines; 11 when the room is too small for them."""
    check_tree(n, table)
    check_partitions(n, partitions)
    check_seen(n, partitions)
    after = moved(n, table, move)
    lines = move_lines(number, partitions, distances(n, table, after, partitions))
    if len(lines) > room:
        raise Refused(11)
    return after, lines


# Jobs.

class Known:
    """What is known of a job at an offset: the fields before it."""

    def __init__(self, at=0, taxa=0, table=b"", partitions=(), moves=0):
        """Keeps the offset and what the fields before it gave."""
        self.at = at
        self.taxa = taxa
        self.table = table
        self.partitions = list(partitions)
        self.moves = moves


def allowed_tags(known):
    """The tags that a field at the offset may have."""
    if known.at == 0:
        return {TAG_COUNT}
    if known.at == 4:
        return {TAG_TABLE}
    if not known.partitions:
        return {TAG_PARTITION}
    if known.moves == 0 and len(known.partitions) < MOST_PARTITIONS:
        return {TAG_PARTITION, TAG_MOVE}
    return {TAG_MOVE}


def field_at(job, known):
    """The tag and content of the field at the offset; 12, and 2 for a table's length."""
    at = known.at
    tag = job[at]
    if tag not in allowed_tags(known) or len(job) - at < 3:
        raise Refused(12)
    length = job[at + 1] * 256 + job[at + 2]
    if tag == TAG_TABLE and length != 2 * row_count(known.taxa):
        raise Refused(2)
    if tag != TAG_TABLE and length != FIELD_LENGTHS[tag]:
        raise Refused(12)
    content = job[at + 3:at + 3 + length]
    if len(content) < length:
        raise Refused(12)
    return tag, content


def read_field(job, known, room):
    """What is known after the field at the offset, and its lines."""
    tag, content = field_at(job, known)
    end = known.at + 3 + len(content)
    after = Known(end, known.taxa, known.table, known.partitions, known.moves)
    lines = b""
    if tag == TAG_COUNT:
        check_count(content[0])
        after = Known(end, content[0])
    elif tag == TAG_TABLE:
        check_table(known.taxa, content)
        after = Known(end, known.taxa, content)
    elif tag == TAG_PARTITION:
        partition = int.from_bytes(content, "big")
        check_partition(known.taxa, partition)
        after.partitions.append(partition)
    else:
        after.moves += 1
        after.table, lines = list_move(known.taxa, known.table, known.partitions,
                                       tuple(content), after.moves, room)
    return after, lines


def partitions_end(job, known):
    """Whether the partitions are over at the offset and no move was read yet.

    A step's state can hold partitions at the count or the table; there they are not over."""
    if known.at <= 4 or not known.partitions or known.moves > 0:
        return False
    return known.at >= len(job) or job[known.at] != TAG_PARTITION


def over(job, known):
    """Whether the job ends at the offset; 12 when it ends too early, 16 for an unseen taxon."""
    ends = known.at >= len(job)
    if ends and not known.partitions:
        raise Refused(12, len(job))
    if partitions_end(job, known):
        check_seen(known.taxa, known.partitions, min(known.at, len(job)))
    return ends


def listing(job):
    """The whole listing of a job, with its closing line."""
    if len(job) > LARGEST_JOB:
        return b"refused 13 at 0\n"
    known = Known()
    written = []
    try:
        while not over(job, known):
            known, lines = placed_field(job, known, float("inf"))
            written.append(lines)
        closing = "end %d\n" % known.moves
    except Refused as refused:
        closing = "refused %d at %d\n" % (refused.number, refused.place)
    return b"".join(written) + closing.encode("ascii")


def placed_field(job, known, room):
    """The same as read_field, a refusal having the field's offset as its place."""
    try:
        return read_field(job, known, room)
    except Refused as refused:
        raise Refused(refused.number, known.at) from None


# One step over a job, from any state.

def check_state(at, taxa, parts, moves, table_bytes, partition_count):
    """Refuses a state that no job has, and one for which the lent memory is too short.

    A table is held above offset 4 alone; up to there none is wanted yet."""
    if not (at == 0 or taxa >= 4) or taxa > 64:
        raise Refused(1, at)
    held_bytes = 2 * row_count(taxa) if at > 4 else 0
    if held_bytes > table_bytes or parts > partition_count:
        raise Refused(11, at)
    if not (at == 0 or at >= 4) or moves > 65535:
        raise Refused(12, at)


def step(job, state, table, partitions, out_bytes):
    """One step: None at the job's end, else what is known after the field, and its lines."""
    if len(job) > LARGEST_JOB:
        raise Refused(13, 0)
    at, taxa, parts, moves = state
    check_state(at, taxa, parts, moves, len(table), len(partitions))
    held = table[:2 * row_count(taxa)] if at > 4 else b""
    known = Known(at, taxa, held, partitions[:parts], moves)
    if over(job, known):
        return None
    after, lines = placed_field(job, known, out_bytes)
    if len(after.table) > len(table) or len(after.partitions) > len(partitions):
        raise Refused(11, at)
    return after, lines
