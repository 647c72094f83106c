"""Makes jobs from a source of chance: right ones, and wrong in each way the document names."""

import making
import tusvlane

LARGEST_LENGTH = 2 ** 16 - 1


def field(tag, content, length=None):
    """A field as bytes; its stated length is its own unless one is given."""
    stated = len(content) if length is None else length
    return bytes([tag]) + stated.to_bytes(2, "big") + content


def count_field(n):
    """The field of the number of taxa."""
    return field(tusvlane.TAG_COUNT, bytes([n]))


def table_field(table):
    """The field of the table."""
    return field(tusvlane.TAG_TABLE, table)


def partition_field(partition):
    """The field of one partition."""
    return field(tusvlane.TAG_PARTITION, partition.to_bytes(8, "big"))


def move_field(move):
    """The field of one move."""
    return field(tusvlane.TAG_MOVE, bytes(move))


def draw_move_count(pick):
    """How many moves: few often, up to 60 sometimes."""
    return pick.choice([0, 1, 2, pick.randint(0, 6), pick.randint(0, 6), pick.randint(0, 12)]
                       * 3 + [pick.randint(0, 60)])


class Parts:
    """The fields of a job, each still apart, to be damaged one by one.

    The job is right when its partitions are, and have all taxa."""

    def __init__(self, pick, n, partitions, move_count):
        """Makes a tree, and moves that are each accepted on the last tree."""
        self.n = n
        self.table = making.make_tree(pick, n)
        self.partitions = list(partitions)
        self.moves = []
        self.last = self.table
        for _ in range(move_count):
            move, self.last = making.accepted_move(pick, n, self.last)
            self.moves.append(move)

    def fields(self):
        """The fields in their order."""
        return ([count_field(self.n), table_field(self.table)]
                + [partition_field(partition) for partition in self.partitions]
                + [move_field(move) for move in self.moves])


def make_parts(pick):
    """The fields of a job of any size, right but for an unseen taxon in one of five."""
    n = making.make_count(pick)
    return Parts(pick, n, making.make_partitions(pick, n), draw_move_count(pick))


def right_job(pick):
    """A job that is read to its end; one in five has an unseen taxon and is not."""
    return b"".join(make_parts(pick).fields())


def many_moves(pick):
    """Many moves in a row on one tree."""
    n = making.make_count(pick)
    partitions = making.covering_partitions(pick, n, pick.randint(1, 4))
    return b"".join(Parts(pick, n, partitions, pick.randint(40, 120)).fields())


def wrong_count(pick):
    """A number of taxa outside 4 to 64."""
    fields = make_parts(pick).fields()
    fields[0] = count_field(pick.choice([0, 1, 2, 3, 65, 66, 128, 255]))
    return b"".join(fields)


def wrong_table_length(pick):
    """A table whose stated length is wrong, its content that long or not, cut or not."""
    parts = make_parts(pick)
    fields = parts.fields()
    right = len(parts.table)
    stated = pick.choice([0, 1, right - 2, right - 1, right + 1, right + 2, right + 4,
                          right ^ 256, LARGEST_LENGTH, pick.randrange(LARGEST_LENGTH)])
    content = pick.choice([parts.table, parts.table[:stated],
                           parts.table + bytes(max(0, min(stated, 1000) - right))])
    fields[1] = field(tusvlane.TAG_TABLE, content, stated)
    if pick.random() < 0.3:
        fields = fields[:2]
    return b"".join(fields)


def table_of_other_count(pick):
    """A right table, but of another number of taxa."""
    parts = make_parts(pick)
    fields = parts.fields()
    fields[0] = count_field(making.make_count(pick))
    return b"".join(fields)


def no_tree(pick):
    """A table that is no tree."""
    parts = make_parts(pick)
    fields = parts.fields()
    fields[1] = table_field(making.wrong_table(pick, parts.n, parts.table))
    return b"".join(fields)


def foreign_taxon(pick):
    """A partition with a taxon that the tree has not."""
    parts = make_parts(pick)
    place = pick.randrange(len(parts.partitions))
    parts.partitions[place] = making.foreign_partition(pick, parts.n)
    return b"".join(parts.fields())


def refused_move(pick):
    """A move refused with 7 to 10, after accepted ones, and others after it."""
    parts = make_parts(pick)
    move = making.refused_move(pick, parts.n, parts.last, pick.randint(7, 10))
    parts.moves.append(move)
    for _ in range(pick.randrange(3)):
        parts.moves.append(making.wild_move(pick, parts.n))
    return b"".join(parts.fields())


def unsure_moves(pick):
    """Moves drawn without a look at what the others did."""
    parts = make_parts(pick)
    for _ in range(pick.randint(1, 6)):
        parts.moves.append(making.draw_move(pick, parts.n, parts.table))
    return b"".join(parts.fields())


def wrong_tag(pick):
    """One field has another tag."""
    fields = make_parts(pick).fields()
    place = pick.randrange(len(fields))
    tag = pick.choice([0, 1, 2, 3, 4, 5, 255, pick.randrange(256)])
    fields[place] = bytes([tag]) + fields[place][1:]
    return b"".join(fields)


def wrong_field_length(pick):
    """One field states another length, its content being as before, longer or shorter."""
    fields = make_parts(pick).fields()
    place = pick.choice([0, pick.randrange(len(fields)), len(fields) - 1])
    old = fields[place]
    right = len(old) - 3
    stated = pick.choice([0, right - 1, right + 1, right + 256, right * 256 % 65536,
                          LARGEST_LENGTH])
    content = pick.choice([old[3:], old[3:3 + stated], old[3:] + b"\0"])
    fields[place] = field(old[0], content, stated)
    return b"".join(fields)


def wrong_order(pick):
    """Two fields are exchanged, one is doubled, moved elsewhere or left out."""
    fields = make_parts(pick).fields()
    one, other = pick.randrange(len(fields)), pick.randrange(len(fields))
    way = pick.randrange(4)
    if way == 0:
        fields[one], fields[other] = fields[other], fields[one]
    elif way == 1:
        fields.insert(other, fields[one])
    elif way == 2:
        fields.insert(other, fields.pop(one))
    else:
        del fields[one]
    return b"".join(fields)


def late_partition(pick):
    """A partition after a move."""
    parts = make_parts(pick)
    move, _ = making.accepted_move(pick, parts.n, parts.last)
    late = partition_field(making.make_partition(pick, parts.n))
    return b"".join(parts.fields()) + move_field(move) + late


def no_partition(pick):
    """No partition: the job ends, or goes on with moves or with something else."""
    parts = make_parts(pick)
    parts.partitions = []
    if pick.random() < 0.4:
        parts.moves = []
    return b"".join(parts.fields()) + pick.choice([b"", b"", b"\4", b"\3", b"\3\0", b"\5"])


def many_partitions(pick):
    """63 to 66 partitions, with moves or none, whole or cut in the last."""
    n = making.make_count(pick)
    partitions = making.make_partitions(pick, n, pick.randint(63, 66))
    job = b"".join(Parts(pick, n, partitions, pick.randint(0, 2)).fields())
    return job[:len(job) - pick.choice([0, 0, 0, 1, 8, 9, 10, 11])]


# What follows a list of partitions, right or wrong.

def nothing(pick, parts):
    """The job ends."""
    return b""


def right_moves(pick, parts):
    """A right move, and perhaps two others that fit or not."""
    move, after = making.accepted_move(pick, parts.n, parts.table)
    more = [making.draw_move(pick, parts.n, after) for _ in range(pick.randrange(3))]
    return b"".join(move_field(each) for each in [move] + more)


def wrong_move(pick, parts):
    """A move refused with 7 to 10."""
    return move_field(making.refused_move(pick, parts.n, parts.table, pick.randint(7, 10)))


def strange_tag(pick, parts):
    """A field that has a tag of the count, of the table or of nothing, or that tag alone."""
    tag = bytes([pick.choice([0, 1, 2, 5, 255])])
    fields = Parts(pick, parts.n, [making.all_taxa(pick, parts.n)], 1).fields()
    return tag + pick.choice([b"", b"\0"] + [each[1:] for each in fields])


def cut_move(pick, parts):
    """A move cut short: after its tag, in its length or in its content."""
    whole = right_moves(pick, parts)[:7]
    return whole[:pick.choice([1, 1, 2, 2, 3, 4, 5, 6])]


def long_or_short_move(pick, parts):
    """A move with a stated length of 3 or 5, its content that long or as it should be."""
    move = right_moves(pick, parts)[3:7]
    stated = pick.choice([3, 5])
    content = pick.choice([move, (move + b"\0")[:stated]])
    return field(tusvlane.TAG_MOVE, content, stated)


def cut_partition(pick, parts):
    """A partition cut short."""
    whole = partition_field(making.make_partition(pick, parts.n))
    return whole[:pick.choice([1, 2, 3, 4, 9, 10])]


def foreign_last(pick, parts):
    """A partition with a foreign taxon, and nothing or a move after it."""
    partition = making.foreign_partition(pick, parts.n)
    return partition_field(partition) + pick.choice([nothing, right_moves])(pick, parts)


def rest_last(pick, parts):
    """A partition of the taxa that lack, or of all but one of them, then something else."""
    lacking = tusvlane.unseen_taxa(parts.n, parts.partitions)
    if lacking and pick.random() < 0.2:
        lacking.remove(pick.choice(sorted(lacking)))
    after = pick.choice([nothing, right_moves, right_moves, wrong_move, strange_tag])
    return partition_field(making.set_of(lacking)) + after(pick, parts)


def move_then_partition(pick, parts):
    """A right move, then a partition of all taxa or any."""
    late = pick.choice([making.all_taxa, making.make_partition])(pick, parts.n)
    return right_moves(pick, parts)[:7] + partition_field(late)


FOLLOWERS = [nothing, right_moves, right_moves, wrong_move, wrong_move, strange_tag, strange_tag,
             cut_move, long_or_short_move, cut_partition, foreign_last, rest_last, rest_last,
             move_then_partition]


def covering_or_lacking(pick, n, count=None):
    """A list of partitions; every second has all taxa."""
    make = pick.choice([making.covering_partitions, making.lacking_partitions])
    return make(pick, n, count)


def followed_list(pick):
    """A list of partitions that has all taxa or not, and something after it."""
    n = making.make_count(pick)
    parts = Parts(pick, n, covering_or_lacking(pick, n), 0)
    return b"".join(parts.fields()) + pick.choice(FOLLOWERS)(pick, parts)


def full_list(pick):
    """64 partitions that have all taxa or not, and a 65th or something else after them."""
    n = making.make_count(pick)
    parts = Parts(pick, n, covering_or_lacking(pick, n, tusvlane.MOST_PARTITIONS), 0)
    after = pick.choice([cut_partition, foreign_last, rest_last] + FOLLOWERS)
    return b"".join(parts.fields()) + after(pick, parts)


def cut_job(pick):
    """A right job cut anywhere."""
    job = right_job(pick)
    return job[:pick.randrange(len(job))]


def cut_field(pick):
    """A right job cut within one field: in its header, in its content, before or after it."""
    fields = make_parts(pick).fields()
    place = pick.randrange(len(fields))
    keep = pick.choice([0, 1, 2, 3, 4, len(fields[place]) - 1, len(fields[place])])
    return b"".join(fields[:place]) + fields[place][:keep]


def cut_table(pick):
    """A table field cut short, its stated length right or wrong, its rows right or wrong."""
    n = making.make_count(pick)
    table = making.make_tree(pick, n)
    stated = len(table) + pick.choice([0, 0, 0, 1, -1])
    content = pick.choice([table, making.wrong_ends(pick, n, table)])
    whole = field(tusvlane.TAG_TABLE, content, stated)
    return count_field(n) + whole[:pick.choice([0, 1, 2, 3, 4, len(whole) - 1, len(whole)])]


def trailing(pick):
    """A right job with a few bytes after it."""
    more = bytes(pick.choice([0, 1, 2, 3, 4, 5, 255]) for _ in range(pick.randint(1, 8)))
    return right_job(pick) + more


def changed_bytes(pick):
    """A right job with a few bytes changed, put in or taken out anywhere."""
    job = bytearray(right_job(pick))
    for _ in range(pick.randint(1, 3)):
        at = pick.randrange(len(job))
        way = pick.randrange(4)
        if way == 0:
            job[at] = pick.randrange(256)
        elif way == 1:
            job[at] ^= 1 << pick.randrange(8)
        elif way == 2:
            job.insert(at, pick.randrange(256))
        elif len(job) > 1:
            del job[at]
    return bytes(job)


def two_faults(pick):
    """A count, a table, a partition and a move that are each right or wrong."""
    n = making.make_count(pick)
    table = making.make_tree(pick, n)
    tree = table
    if pick.random() < 0.3:
        table = making.wrong_table(pick, n, table)
    said = pick.choice([n, n, n, n, 3, 65])
    partition = pick.choice([making.all_taxa, making.all_taxa, making.make_partition,
                             making.foreign_partition])(pick, n)
    move = pick.choice([making.draw_move, making.faulty_move])(pick, n, tree)
    fields = [count_field(said), table_field(table), partition_field(partition),
              move_field(move)]
    if pick.random() < 0.3:
        fields[pick.randrange(4)] += b"\0"
    return b"".join(fields)


def noise(pick):
    """Bytes that were never a job; often none at all."""
    length = pick.choice([0, 1, 2, 3, 4, pick.randrange(60)])
    return bytes(pick.choice([0, 1, 2, 3, 4, 6, 255]) for _ in range(length))


def too_long(pick):
    """More bytes than a job may have, whatever they are."""
    length = pick.choice([65536, 65536, 65537, 65538, 70000, 131071])
    start = pick.choice([right_job(pick), b"", noise(pick)])
    rest = pick.choice([bytes(length), b"\4\0\4\1\0\0\0" * (length // 7 + 1), b"\7" * length])
    return (start + rest)[:length]


def as_long_as_allowed(pick):
    """65535 bytes or one fewer, refused somewhere on the way."""
    start = right_job(pick)
    length = pick.choice([65535, 65535, 65534])
    rest = pick.choice([bytes(length), b"\4\0\4\2\1\1\0" * (length // 7 + 1), b"\3" * length])
    return (start + rest)[:length]


def longest_job(pick):
    """A right job of exactly 65535 bytes; every move is accepted."""
    while True:
        n = pick.choice([4, 5, 6, 9, 16, 64])
        partition_count = pick.randint(1, 4)
        before = 4 + 3 + 2 * tusvlane.row_count(n) + 11 * partition_count
        if (tusvlane.LARGEST_JOB - before) % 7 == 0:
            break
    move_count = (tusvlane.LARGEST_JOB - before) // 7
    partitions = making.covering_partitions(pick, n, partition_count)
    return b"".join(Parts(pick, n, partitions, move_count).fields())


WAYS = (
    [right_job] * 16 + [refused_move] * 17 + [unsure_moves] * 4 + [wrong_count] * 2
    + [wrong_table_length] * 3 + [table_of_other_count] + [no_tree] * 6 + [foreign_taxon] * 3
    + [wrong_tag] * 3 + [wrong_field_length] * 3 + [wrong_order] * 3 + [late_partition]
    + [no_partition] * 2 + [cut_job] * 2 + [cut_field] * 4 + [cut_table] * 2 + [trailing] * 2
    + [changed_bytes] * 6 + [two_faults] * 4 + [noise] * 2 + [followed_list] * 12
    + [full_list] * 2
)
RARE_WAYS = [many_moves, many_partitions, too_long, as_long_as_allowed]


def make_job(pick, number):
    """The job of this number; a few are as long as a job can be."""
    if number % 2500 == 1000:
        return longest_job(pick)
    if number % 50 == 7:
        return pick.choice(RARE_WAYS)(pick)
    return pick.choice(WAYS)(pick)
