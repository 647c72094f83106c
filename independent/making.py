"""Makes trees, partitions and moves from a source of chance, right ones and wrong ones.

What a made thing was meant to be decides nothing: the reference says what it is.
"""

import tusvlane

EVERY_BIT = 2 ** 64 - 1


# Trees.

def grown(pick, n, chooses_row):
    """A tree: each further taxon is set on the row that chooses_row names."""
    rows = [(0, n), (1, n), (2, n)]
    for taxon in range(3, n):
        inner = n + taxon - 2
        number = chooses_row(pick, rows, taxon)
        near, far = rows[number]
        rows[number] = (near, inner)
        rows.append((inner, far))
        rows.append((taxon, inner))
    return rows


def any_row(pick, rows, taxon):
    """Any row: a tree of no special shape."""
    return pick.randrange(len(rows))


def last_taxon_row(pick, rows, taxon):
    """The row of the taxon set last: a caterpillar."""
    return row_of_taxon(rows, taxon - 1)


def oldest_taxon_row(pick, rows, taxon):
    """The taxa's rows in turn, so that all lie about as deep: a balanced tree."""
    layer = 3
    while layer * 2 <= taxon:
        layer *= 2
    return row_of_taxon(rows, taxon - layer)


def row_of_taxon(rows, taxon):
    """The number of the taxon's only row."""
    return next(number for number, row in enumerate(rows) if taxon in row)


def renumbered(pick, n, rows):
    """The same shape with taxa, inner nodes and rows in an order of chance, as a table."""
    taxa = pick.sample(range(n), n)
    inner = pick.sample(range(n, 2 * n - 2), n - 2)
    names = taxa + inner
    rows = [(names[near], names[far]) for near, far in rows]
    pick.shuffle(rows)
    return tusvlane.table_of(rows)


def make_tree(pick, n):
    """The table of a tree of n taxa: a caterpillar, a balanced one or one of any shape."""
    shape = pick.choice([any_row, any_row, last_taxon_row, oldest_taxon_row])
    return renumbered(pick, n, grown(pick, n, shape))


def same_tree(pick, n, table):
    """The same tree with inner nodes and rows numbered anew."""
    names = list(range(n)) + pick.sample(range(n, 2 * n - 2), n - 2)
    rows = [(names[near], names[far]) for near, far in tusvlane.rows_of(table)]
    pick.shuffle(rows)
    return tusvlane.table_of(rows)


def make_count(pick):
    """A number of taxa: small ones often, each from 4 to 64 sometimes."""
    return pick.choice([pick.randint(4, 8), pick.randint(4, 8), pick.randint(4, 16),
                        pick.randint(4, 32), pick.randint(4, 64), 64])


# Tables that are no trees.

def unreachable_table(pick, n):
    """Each node has its number of rows, but most likely not all hang together."""
    while True:
        ends = list(range(n)) + [node for node in range(n, 2 * n - 2) for _ in range(3)]
        pick.shuffle(ends)
        rows = list(zip(ends[::2], ends[1::2]))
        if all(near != far for near, far in rows):
            return tusvlane.table_of(rows)


def exchanged_ends(pick, n, table):
    """Two rows exchange an end: a tree again, or two pieces, one of which has a ring."""
    rows = tusvlane.rows_of(table)
    first, second = pick.sample(range(len(rows)), 2)
    (kept, given), (taken, left) = rows[first], pick.sample(list(rows[second]), 2)
    if kept == taken or given == left:
        return table
    rows[first], rows[second] = (kept, taken), (given, left)
    return tusvlane.table_of(rows)


def wrong_degrees(pick, n, table):
    """One or two ends are set to another node, the rows staying in order."""
    rows = [list(row) for row in tusvlane.rows_of(table)]
    for _ in range(pick.randint(1, 2)):
        row = pick.choice(rows)
        row[:] = sorted(pick.sample(range(2 * n - 2), 2))
    return tusvlane.table_of(rows)


def wrong_ends(pick, n, table):
    """One row has its ends exchanged, equal, or one of them too large."""
    at = 2 * pick.randrange(len(table) // 2)
    near, far = table[at], table[at + 1]
    row = pick.choice([(far, near), (near, near), (far, far), (near, 2 * n - 2), (near, 255),
                       (2 * n - 2, 2 * n - 1), (pick.randrange(256), pick.randrange(256))])
    return table[:at] + bytes(row) + table[at + 2:]


def wrong_table(pick, n, table):
    """A table of the right length that is most likely no tree."""
    way = pick.randrange(7)
    if way == 0:
        return unreachable_table(pick, n)
    if way == 6:
        return exchanged_ends(pick, n, table)
    if way == 1:
        return wrong_degrees(pick, n, table)
    if way == 2:
        return wrong_ends(pick, n, table)
    if way == 3:
        return wrong_ends(pick, n, wrong_degrees(pick, n, table))
    if way == 4:
        return wrong_degrees(pick, n, unreachable_table(pick, n))
    return bytes(pick.randrange(256) for _ in table)


def refused_table(pick, n, number):
    """A table of the right length that is refused with the number, which is from 3 to 5."""
    while True:
        table = wrong_table(pick, n, make_tree(pick, n))
        try:
            tusvlane.check_table(n, table)
        except tusvlane.Refused as refused:
            if refused.number == number:
                return table


# Partitions.

def taxa_in(partition):
    """The taxa of a set, ascending."""
    return [taxon for taxon in range(64) if partition >> taxon & 1]


def set_of(taxa):
    """The taxa as a set."""
    return sum(1 << taxon for taxon in taxa)


def all_taxa(pick, n):
    """The set of all taxa."""
    return (1 << n) - 1


def make_partition(pick, n):
    """A set of taxa: mostly 70 in 100 cells empty; also none, all, and 1 to 4 taxa."""
    way = pick.randrange(10)
    if way == 0:
        return 0
    if way == 1:
        return all_taxa(pick, n)
    if way <= 3:
        return set_of(pick.sample(range(n), pick.randint(1, 4)))
    return set_of(taxon for taxon in range(n) if pick.random() < 0.3)


def foreign_partition(pick, n):
    """A partition with a taxon n or above; with 64 taxa there is none, and it is any."""
    partition = make_partition(pick, n)
    if n == 64:
        return partition
    return pick.choice([partition | 1 << n, partition | 1 << pick.randint(n, 63),
                        partition | 1 << 63, EVERY_BIT])


def equal_parts(pick, few, many):
    """As many taxa of the one as of the other, often all that there are."""
    size = pick.choice([len(few), pick.randint(1, len(few))])
    return pick.sample(few, size), pick.sample(many, size)


def nearly_equal_parts(pick, few, many):
    """Equal parts, but one or two taxa of either are left out again; never all of them."""
    few, many = equal_parts(pick, few, many)
    shorter = pick.choice([few, many])
    del shorter[1:1 + pick.randint(1, 2)]
    return few, many


def unequal_parts(pick, few, many):
    """Up to three taxa of either and most of the other; often the lowest is of the few."""
    few, many = pick.choice([(few, many), (many, few)])
    few = pick.sample(few, min(len(few), pick.randint(1, 3)))
    many = pick.sample(many, max(len(many) - pick.randrange(4), 1))
    if pick.random() < 0.6 and max(many) > min(few):
        many = [taxon for taxon in many if taxon > min(few)]
    return few, many


def divided_partition(pick, n, splits):
    """A partition that one of the splits divides into halves, nearly halves, or few and many.

    The splits are sides over all taxa, either of the two; even ones are taken more often."""
    drawn = [pick.choice(splits) for _ in range(pick.choice([1, 2, 4, 16]))]
    side = min(drawn, key=lambda taxa: abs(n - 2 * tusvlane.set_size(taxa)))
    few, many = sorted([taxa_in(side), taxa_in(((1 << n) - 1) & ~side)], key=len)
    parts = pick.choice([equal_parts, equal_parts, nearly_equal_parts, unequal_parts,
                         unequal_parts])
    one, other = parts(pick, few, many)
    return set_of(one + other)


def small_partition(pick, n):
    """A set of 0 to 3 taxa: too few to count as saved."""
    return set_of(pick.sample(range(n), pick.randint(0, 3)))


def partition_near_four(pick, n):
    """A set of 0 to 5 taxa: too few to count as saved, or just enough."""
    return set_of(pick.sample(range(n), min(n, pick.randint(0, 5))))


def small_or_large(pick, n):
    """A set of 0 to 3 taxa, or as likely one of 4 to n."""
    if pick.random() < 0.5:
        return small_partition(pick, n)
    return set_of(pick.sample(range(n), pick.randint(4, n)))


# Lists of partitions.

# Of any size; small ones alone; near four; small and large ones.
KINDS_OF_LIST = ([make_partition] * 5 + [small_partition] + [partition_near_four] * 2
                 + [small_or_large] * 2)


def draw_partition_count(pick):
    """How many partitions: few often, one alone seldom, up to 64 sometimes."""
    return pick.choice([pick.randint(1, 3), 2, pick.randint(1, 6), pick.randint(1, 6),
                        pick.randint(1, 20), pick.randint(1, 64)])


def most_taxa(kind, n, size):
    """How many taxa a partition of this size may get, so that its list stays of its kind."""
    if kind is small_partition or (kind is small_or_large and size <= 3):
        return 3
    return min(n, 5) if kind is partition_near_four else n


def draw_sets(pick, n, count):
    """Sets of taxa of one kind, and for each the most taxa; together they can hold all.

    Where no count is given it is drawn until they can; otherwise the kind is."""
    kind = pick.choice(KINDS_OF_LIST)
    while True:
        drawn = range(count or draw_partition_count(pick))
        sets = [set(taxa_in(kind(pick, n))) for _ in drawn]
        most = [most_taxa(kind, n, len(taxa)) for taxa in sets]
        if sum(most) >= n:
            return sets, most
        if count:
            kind = pick.choice(KINDS_OF_LIST)


def put_in(pick, taxon, sets, most, favoured):
    """Puts an unseen taxon into a set with room, or in the place of one that two sets have."""
    roomy = [place for place, taxa in enumerate(sets) if len(taxa) < most[place]]
    if not roomy:
        doubled = [(place, other) for place, taxa in enumerate(sets) for other in sorted(taxa)
                   if sum(1 for each in sets if other in each) > 1]
        place, other = pick.choice(doubled)
        sets[place].remove(other)
        roomy = [place]
    liked = [place for place in roomy if place in favoured]
    sets[pick.choice(liked or roomy)].add(taxon)


def leave_unseen(pick, n, sets, most, lacking):
    """Changes the sets so that just the lacking taxa are in none of them."""
    for taxa in sets:
        taxa -= lacking
    unseen = sorted(set(range(n)) - lacking - set().union(*sets))
    pick.shuffle(unseen)
    places = len(sets)
    favoured = pick.sample(range(places), pick.choice([1, places, pick.randint(1, places)]))
    for taxon in unseen:
        put_in(pick, taxon, sets, most, favoured)


def keep_for_one(pick, sets):
    """Takes up to three taxa of one set, often the last, out of all the others."""
    last = len(sets) - 1
    only = pick.choice([0, last, last, pick.randint(0, last)])
    kept = set(pick.sample(sorted(sets[only]), min(len(sets[only]), pick.randint(1, 3))))
    for place, taxa in enumerate(sets):
        if place != only:
            taxa -= kept


def lacking_taxa(pick, n):
    """Taxa to be in no partition: the last alone, the first alone, one between, some, many."""
    return set(pick.choice([[n - 1], [0], [pick.randint(1, n - 2)],
                            pick.sample(range(n), pick.randint(2, 3)),
                            pick.sample(range(n), pick.randint(2, n))]))


def covering_partitions(pick, n, count=None):
    """A list of partitions that has all taxa, now and then some of them but once."""
    sets, most = draw_sets(pick, n, count)
    leave_unseen(pick, n, sets, most, set())
    if pick.random() < 0.3:
        keep_for_one(pick, sets)
    return [set_of(taxa) for taxa in sets]


def lacking_partitions(pick, n, count=None):
    """A list of partitions that lacks a taxon or several."""
    sets, most = draw_sets(pick, n, count)
    leave_unseen(pick, n, sets, most, lacking_taxa(pick, n))
    return [set_of(taxa) for taxa in sets]


def make_partitions(pick, n, count=None):
    """A list of partitions; four in five have all taxa."""
    make = pick.choice([covering_partitions] * 4 + [lacking_partitions])
    return make(pick, n, count)


# Moves.

def draw_nni(pick, n, rows, at):
    """An inner row and a row at each of its ends."""
    e = pick.choice([number for number, row in enumerate(rows) if min(row) >= n])
    around = [pick.choice([number for number in at[end] if number != e]) for end in rows[e]]
    pick.shuffle(around)
    return (tusvlane.NNI, e, around[0], around[1])


def draw_spr(pick, n, rows, at):
    """Any two rows."""
    a, b = pick.sample(range(len(rows)), 2)
    return (tusvlane.SPR, a, b, 0)


def draw_tbr(pick, n, rows, at):
    """Any row, and a target in each of its two parts."""
    a = pick.randrange(len(rows))
    targets = []
    for end in sorted(rows[a]):
        part = sorted(tusvlane.part_of(n, rows, end, a))
        targets.append(pick.choice(part) if part else a)
    return (tusvlane.TBR, a, targets[0], targets[1])


def draw_move(pick, n, table):
    """A move that is accepted more often than not, on a table that is a tree."""
    rows = tusvlane.rows_of(table)
    draw = pick.choice([draw_nni, draw_spr, draw_tbr])
    return draw(pick, n, rows, tusvlane.rows_at(n, rows))


def accepted_move(pick, n, table):
    """A move that is accepted on this tree, and the table after it."""
    while True:
        move = draw_move(pick, n, table)
        try:
            return move, tusvlane.moved(n, table, move)
        except tusvlane.Refused:
            pass


def near_tree(pick, n, tree):
    """The tree after one to three moves, its inner nodes and rows numbered anew."""
    for _ in range(pick.randint(1, 3)):
        tree = accepted_move(pick, n, tree)[1]
    return same_tree(pick, n, tree)


def nni_neighbour(pick, n, tree):
    """The tree after one NNI: one split is another."""
    rows = tusvlane.rows_of(tree)
    return tusvlane.moved(n, tree, draw_nni(pick, n, rows, tusvlane.rows_at(n, rows)))


def another_tree(pick, n, tree):
    """Any tree of the same taxa."""
    return make_tree(pick, n)


def divided_trees(pick):
    """Two trees of n taxa, and a partition made for a split that the second lacks, if any."""
    n = pick.choice([make_count(pick), make_count(pick), pick.randint(40, 64)])
    first = make_tree(pick, n)
    second = pick.choice([nni_neighbour, near_tree, another_tree])(pick, n, first)
    every_taxon = (1 << n) - 1
    splits = tusvlane.split_set(n, first, every_taxon)
    lacking = splits - tusvlane.split_set(n, second, every_taxon)
    return n, first, second, divided_partition(pick, n, sorted(lacking or splits))


def wild_move(pick, n):
    """A move of four bytes that need not fit anything."""
    def number():
        """A row number, now and then one too large."""
        return pick.choice([pick.randrange(2 * n - 3)] * 6 + [0, 2 * n - 4, 2 * n - 3, 255])
    kind = pick.choice([1, 2, 3] * 4 + [0, 4, 255, pick.randrange(256)])
    third = pick.choice([0, 0, 0, number()]) if kind == tusvlane.SPR else number()
    return (kind, number(), number(), third)


def staying_move(pick, n, table):
    """An SPR or TBR in which most likely no end moves."""
    rows = tusvlane.rows_of(table)
    at = tusvlane.rows_at(n, rows)
    a = pick.randrange(len(rows))
    touching = []
    for end in sorted(rows[a]):
        touching.append(pick.choice([number for number in at[end] if number != a] or [a]))
    if pick.random() < 0.5:
        return (tusvlane.SPR, a, pick.choice(touching), 0)
    return (tusvlane.TBR, a, touching[0], touching[1])


def misfit_move(pick, n, table):
    """A move that fits, but for one of its rows."""
    move = list(pick.choice([draw_move, staying_move])(pick, n, table))
    place = pick.randint(1, 2 if move[0] == tusvlane.SPR else 3)
    move[place] = pick.choice([move[1], move[2], move[3], pick.randrange(2 * n - 3)])
    return tuple(move)


def faulty_move(pick, n, table):
    """A move that is refused more often than not."""
    way = pick.randrange(3)
    if way == 0:
        return wild_move(pick, n)
    if way == 1:
        return staying_move(pick, n, table)
    return misfit_move(pick, n, table)


def refused_move(pick, n, table, number):
    """A move that this tree refuses with the number."""
    while True:
        move = faulty_move(pick, n, table)
        try:
            tusvlane.moved(n, table, move)
        except tusvlane.Refused as refused:
            if refused.number == number:
                return move
