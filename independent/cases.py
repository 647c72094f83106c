"""Holds the reference to the document's own example and cases, before it judges others."""

import random

import making
import newick
import tusvlane

TREE_S = bytes.fromhex("0006 0106 0607 0207 0708 0308 0809 0409 0509")
EXAMPLE = (bytes.fromhex("01 0001 06 02 0012") + TREE_S + bytes.fromhex(
    "03 0008 000000000000003F 03 0008 000000000000000F 04 0004 01040305"))

ALL = range(6)
DISTANCES = [
    ((1, 4, 3, 5), ALL, 2),
    ((1, 4, 3, 5), [0, 2, 3, 4], 2),
    ((1, 4, 3, 5), [0, 1, 4, 5], 0),
    ((1, 4, 3, 5), [], 0),
    ((2, 0, 7, 0), ALL, 6),
    ((2, 0, 7, 0), [0, 1, 2, 3], 2),
    ((2, 0, 7, 0), [0, 1, 2], 0),
    ((2, 0, 7, 0), [1, 2, 3, 4, 5], 0),
    ((3, 4, 0, 7), ALL, 4),
    ((3, 4, 0, 7), [0, 1, 3, 4], 0),
    ((3, 4, 0, 7), [0, 1, 2, 3], 2),
]
AFTER = [
    ((2, 0, 7, 0), {1: (1, 7), 2: (6, 9), 7: (4, 6)}),
    ((3, 4, 0, 7), {0: (0, 7), 2: (2, 6), 3: (6, 7), 5: (3, 9), 6: (8, 9), 7: (4, 8)}),
]
REFUSED_MOVES = [((2, 0, 1, 0), 10), ((2, 0, 0, 0), 9), ((2, 0, 9, 0), 8), ((3, 0, 1, 3), 9)]

# The lists of splits of tree S, and of the tree after SPR 0,7, worked out by hand.
LISTS = [
    (ALL, [1, 2, 3, 4, 8, 16, 32, 48, 56]),
    ([0, 1, 4, 5], [1, 2, 16, 32, 48]),
    ([3, 4, 5], [8, 16, 32]),
    ([2, 4], [16]),
    ([0, 1, 2, 3], [1, 2, 4, 8, 12]),
    ([1, 2, 3, 4, 5], [2, 4, 6, 8, 16, 32, 48]),
    ([0, 1], [2]),
    ([5], []),
    ([], []),
]
LISTS_AFTER_SPR = [
    (ALL, [1, 2, 4, 6, 8, 14, 16, 17, 32]),
    ([0, 1, 2, 4], [1, 2, 4, 6, 16]),
]
# Tree S compared with the tree after the move, then that with S.
COMPARISONS = [
    ((1, 4, 3, 5), ALL, (2, 56), (2, 52)),
    ((1, 4, 3, 5), [0, 2, 3, 4], (2, 24), (2, 20)),
    ((1, 4, 3, 5), [0, 1, 4, 5], (0, 0), (0, 0)),
    ((2, 0, 7, 0), ALL, (6, 3), (6, 6)),
    ((2, 0, 7, 0), [0, 1, 2, 3], (2, 12), (2, 6)),
]

# For jobs on tree S, the last byte of each partition, the moves, and the listing.
SAVED = [
    # None, 2, 2 and 3, 0 2 3, 0 1 4 5: all the same, and one has four taxa.
    ("00 04 0C 0D 33", ["01040305"],
     b"1 1 same 0\n1 2 same 0\n1 3 same 0\n1 4 same 0\n1 5 same 0\n"
     b"1 saved 1 full\nend 1\n"),
    # 1 5, 0 3, 2 3 4: fewer than four taxa each, whatever the moves.
    ("22 09 1C", ["01040305", "02000700"],
     b"1 1 same 0\n1 2 same 0\n1 3 same 0\n1 saved 0 full\n"
     b"2 1 same 0\n2 2 same 0\n2 3 same 0\n2 saved 0 full\nend 2\n"),
    # 0 1 2, 3 4 5: the fewest partitions in which nothing counts as saved.
    ("07 38", ["03040007"], b"1 1 same 0\n1 2 same 0\n1 saved 0 full\nend 1\n"),
    # Four taxa, and the other two.
    ("33 0C", ["01040305"], b"1 1 same 0\n1 2 same 0\n1 saved 1 full\nend 1\n"),
    # None, 3, all, 0 1 4 5: three of four are the same.
    ("00 08 3F 33", ["01040305"],
     b"1 1 same 0\n1 2 same 0\n1 3 changed 2\n1 4 same 0\n1 saved 1 pt8\nend 1\n"),
    # 0 1 2, all: one of two is the same.
    ("07 3F", ["01040305"], b"1 1 same 0\n1 2 changed 2\n1 saved 0 pt5\nend 1\n"),
    # All, 0 2 3 4: nothing is the same.
    ("3F 1D", ["01040305"], b"1 1 changed 2\n1 2 changed 2\n1 saved 0 none\nend 1\n"),
    # All, 0 1 2 3, 0 1 2, 1 to 5: two of four are the same, one has five taxa.
    ("3F 0F 07 3E", ["02000700"],
     b"1 1 changed 6\n1 2 changed 2\n1 3 same 0\n1 4 same 0\n1 saved 1 pt5\nend 1\n"),
    # 0 1 3 4, 0 1 2 3, 3 4 5, 0 5, all: three of five are the same.
    ("1B 0F 38 21 3F", ["03040007"],
     b"1 1 same 0\n1 2 changed 2\n1 3 same 0\n1 4 same 0\n1 5 changed 4\n"
     b"1 saved 1 pt6\nend 1\n"),
    # None, 0 1 2, 0 1 2 3, 1 to 5: the one saved is another after the second move.
    ("00 07 0F 3E", ["01040305", "02000700"],
     b"1 1 same 0\n1 2 same 0\n1 3 same 0\n1 4 changed 2\n1 saved 1 pt8\n"
     b"2 1 same 0\n2 2 same 0\n2 3 changed 2\n2 4 same 0\n2 saved 1 pt8\nend 2\n"),
]
# Partitions of 64 taxa along a line; by the NNI 94,31,32 the taxa 31 and 32 change places.
SAVED_ON_LINE = [[0, 31, 32, 63], [0, 1, 62, 63], [31, 32, 63], [0, 30, 33, 63],
                 [60, 61, 62, 63], [61, 62, 63], [*range(31), *range(33, 64)]]
LINES_ON_LINE = (b"7 1 changed 2\n7 2 same 0\n7 3 same 0\n7 4 same 0\n7 5 same 0\n"
                 b"7 6 same 0\n7 7 same 0\n7 saved 4 pt9\n")

# For jobs on tree S, the last byte of each partition, what follows in hex, and the closing
# line. The first partition is at 25, and each is 11 bytes long.
RIGHT_MOVE = "04 0004 01040305"
UNSEEN = [
    # 4 and 5 are in no partition: what follows is not judged, nor that the job ends.
    ("0F", "", "refused 16 at 36"),
    ("0F", RIGHT_MOVE, "refused 16 at 36"),
    ("0F", "04 0004 00040305", "refused 16 at 36"),
    ("0F", "04 0004 01090305", "refused 16 at 36"),
    ("0F", "04 0004 01040303", "refused 16 at 36"),
    ("0F", "04 0004 02000100", "refused 16 at 36"),
    ("0F", "04", "refused 16 at 36"),
    ("0F", "04 00", "refused 16 at 36"),
    ("0F", "04 0003 010403", "refused 16 at 36"),
    ("0F", "04 0005 0104030500", "refused 16 at 36"),
    ("0F", "05", "refused 16 at 36"),
    ("0F", "00 0008 000000000000003F", "refused 16 at 36"),
    ("0F", "01 0001 06", "refused 16 at 36"),
    ("0F", "02 0012", "refused 16 at 36"),
    ("0F", RIGHT_MOVE + "03 0008 000000000000003F", "refused 16 at 36"),
    # The same after a list that has all taxa.
    ("3F", "", "end 0"),
    ("3F", "04 0004 00040305", "refused 7 at 36"),
    ("3F", "04 0004 01090305", "refused 8 at 36"),
    ("3F", "04 0004 01040303", "refused 9 at 36"),
    ("3F", "04 0004 02000100", "refused 10 at 36"),
    ("3F", "04", "refused 12 at 36"),
    ("3F", "04 00", "refused 12 at 36"),
    ("3F", "04 0003 010403", "refused 12 at 36"),
    ("3F", "04 0005 0104030500", "refused 12 at 36"),
    ("3F", "05", "refused 12 at 36"),
    ("3F", "00 0008 000000000000003F", "refused 12 at 36"),
    ("3F", "01 0001 06", "refused 12 at 36"),
    ("3F", "02 0012", "refused 12 at 36"),
    # The first taxon alone, the last alone, one between, all of them.
    ("3E 3C", "", "refused 16 at 47"),
    ("1F 10 00", "", "refused 16 at 58"),
    ("37 20", "", "refused 16 at 47"),
    ("00 00", "", "refused 16 at 47"),
    # Each taxon in one partition only; the last partition brings the last taxa.
    ("01 02 04 08 10 20", "", "end 0"),
    ("0F 30", "", "end 0"),
    ("0F" * 63 + "30", "", "end 0"),
    # A further partition is judged first: a foreign taxon, cut short, the 65th.
    ("0F 4F", "", "refused 6 at 36"),
    ("0F", "03", "refused 12 at 36"),
    ("0F", "03 0008 00000000000000", "refused 12 at 36"),
    ("0F", "03 0007 00000000000000", "refused 12 at 36"),
    ("0F" * 64, "03 0008 000000000000003F", "refused 12 at 729"),
    ("0F" * 64, "", "refused 16 at 729"),
    # No partition.
    ("", "", "refused 12 at 25"),
    ("", RIGHT_MOVE, "refused 12 at 25"),
]
# For move calls on tree S, the partitions, the move, and the refusal or 0.
UNSEEN_CALLS = [
    ([0x0F], (1, 4, 3, 5), 16), ([0x0F], (0, 0, 0, 0), 16), ([0x0F, 0x10], (1, 4, 3, 3), 16),
    ([0x0F, 0x30], (1, 4, 3, 5), 0), ([0x0F, 0x30], (0, 0, 0, 0), 7),
    ([0x0F, 0x4F], (1, 4, 3, 5), 6), ([], (1, 4, 3, 5), 6), ([0x0F] * 65, (1, 4, 3, 5), 6),
]
# For steps over the job of partition 0F and one right move, which is 43 bytes long: the state,
# the partitions held, and the refusal and its place; 0 and 0 where there is none.
UNSEEN_STEPS = [
    # Where the partitions are over, at the field or at the job's end and beyond it.
    ((36, 6, 1, 0), [0x0F], (16, 36)), ((43, 6, 1, 0), [0x0F], (16, 43)),
    ((44, 6, 1, 0), [0x0F], (16, 43)), ((5, 6, 1, 0), [0x0F], (16, 5)),
    # What is lent beyond the partitions held does not count.
    ((36, 6, 2, 0), [0x0F, 0x30], (0, 0)), ((36, 6, 1, 0), [0x0F, 0x30], (16, 36)),
    ((43, 6, 2, 0), [0x0F, 0x30], (0, 0)), ((43, 6, 1, 0), [0x0F, 0x30], (16, 43)),
    # Not at the count, the table or a partition, nor where none is held.
    ((0, 6, 1, 0), [0x0F], (0, 0)), ((4, 6, 1, 0), [0x0F], (0, 0)),
    ((25, 6, 1, 0), [0x0F, 0], (0, 0)), ((36, 6, 0, 0), [0x0F], (12, 36)),
    ((43, 6, 0, 0), [0x0F], (12, 43)),
    # After a move the job may end; a further move is refused as list_move refuses it.
    ((43, 6, 1, 1), [0x0F], (0, 0)), ((36, 6, 1, 1), [0x0F], (16, 36)),
    # With a foreign taxon held, and with more partitions than a list has.
    ((36, 6, 1, 0), [0x4F], (16, 36)), ((36, 6, 1, 1), [0x4F], (6, 36)),
    ((36, 6, 1, 0), [0x7F], (6, 36)), ((43, 6, 1, 0), [0x7F], (0, 0)),
    ((36, 6, 65, 0), [0x0F] * 65, (16, 36)), ((36, 6, 65, 1), [0x0F] * 65, (6, 36)),
    ((43, 6, 65, 0), [0x0F] * 64 + [0x30], (0, 0)),
]

# What stands in hex at offset 4 in the place of a right table, after the count 6, and the
# refusal, whatever the length of the lent table.
HEX_S = TREE_S.hex()
TABLE_FAULTS = [
    # Another tag; the tag alone; one byte of the length.
    ("03 0012" + HEX_S, 12), ("01 0001 06", 12), ("00 0012" + HEX_S, 12), ("03", 12),
    ("04 0004 01040305", 12), ("02", 12), ("02 00", 12),
    # Another stated length, the content that long or not, or none of it there.
    ("02 0011" + HEX_S[:34], 2), ("02 0011" + HEX_S, 2), ("02 0011", 2), ("02 0013" + HEX_S, 2),
    ("02 0013" + HEX_S + "00", 2), ("02 0000", 2), ("02 0112" + HEX_S, 2), ("02 FFFF", 2),
    # The table of a tree of 4 taxa, whole.
    ("02 000A 0004 0104 0205 0305 0405", 2),
    # Cut short: no content, all but one byte of it, and with a wrong row.
    ("02 0012", 12), ("02 0012" + HEX_S[:34], 12), ("02 0012 06", 12), ("02 0012 0600", 12),
    # The first row or the last with its ends exchanged, equal, or above 9.
    ("02 0012 0600" + HEX_S[4:], 3), ("02 0012" + HEX_S[:32] + "0905", 3),
    ("02 0012" + HEX_S[:32] + "0505", 3), ("02 0012" + HEX_S[:32] + "050A", 3),
    # Taxon 4 at two rows and 5 at none; inner node 8 at four rows and 9 at two.
    ("02 0012" + HEX_S[:32] + "0409", 4), ("02 0012" + HEX_S[:32] + "0508", 4),
    # Taxa 0 and 1 joined to each other, the rest a graph of its own.
    ("02 0012 0001 0206 0306 0607 0407 0708 0809 0809 0509", 5),
    # The same before what may follow.
    ("02 0012" + HEX_S[:32] + "0409 03 0008 000000000000003F", 4),
]
# For steps over the example job, which is 54 bytes long: the state, the number of partitions
# lent, each of taxa 0 to 3, the length of the lent table, and the refusal and its place; 0 and 0
# where there is none. The table is at 4, the partitions at 25 and 36, the move at 47.
TABLE_STEPS = [
    # The right table: it fits from 18 bytes on.
    ((4, 6, 0, 0), 0, 0, (11, 4)), ((4, 6, 0, 0), 0, 1, (11, 4)), ((4, 6, 0, 0), 0, 16, (11, 4)),
    ((4, 6, 0, 0), 0, 17, (11, 4)), ((4, 6, 0, 0), 0, 18, (0, 0)), ((4, 6, 0, 0), 0, 19, (0, 0)),
    ((4, 6, 0, 0), 0, 250, (0, 0)), ((4, 6, 2, 7), 2, 17, (11, 4)), ((4, 6, 2, 7), 2, 18, (0, 0)),
    # By the state's count the stated length is wrong; that comes before the room.
    ((4, 4, 0, 0), 0, 0, (2, 4)), ((4, 7, 0, 0), 0, 18, (2, 4)), ((4, 64, 0, 0), 0, 0, (2, 4)),
    # The state comes before the field: 1, a list too short, the number of moves.
    ((4, 3, 0, 0), 0, 0, (1, 4)), ((4, 65, 1, 65536), 0, 0, (1, 4)),
    ((4, 6, 1, 65536), 0, 0, (11, 4)), ((4, 6, 1, 65536), 0, 18, (11, 4)),
    ((4, 6, 0, 65536), 0, 0, (12, 4)), ((4, 6, 0, 65535), 0, 0, (11, 4)),
    # Within the count's field.
    ((1, 6, 0, 0), 0, 0, (12, 1)), ((3, 64, 0, 0), 0, 17, (12, 3)), ((3, 3, 0, 0), 0, 0, (1, 3)),
    ((2, 6, 1, 0), 0, 0, (11, 2)),
    # At the count no table is held or written, whatever the state's taxa.
    ((0, 0, 0, 0), 0, 0, (0, 0)), ((0, 6, 0, 0), 0, 0, (0, 0)), ((0, 64, 0, 0), 0, 249, (0, 0)),
    ((0, 64, 1, 0), 0, 0, (11, 0)), ((0, 65, 0, 0), 0, 0, (1, 0)),
    ((0, 6, 0, 65536), 0, 0, (12, 0)),
    # Above 4 the room for the table is judged at once, after 1 and before 12.
    ((5, 6, 0, 0), 0, 17, (11, 5)), ((5, 6, 0, 0), 0, 18, (12, 5)),
    ((25, 6, 0, 0), 1, 17, (11, 25)), ((25, 6, 0, 0), 1, 0, (11, 25)),
    ((25, 6, 0, 0), 1, 18, (0, 0)), ((25, 7, 0, 0), 1, 21, (11, 25)),
    ((25, 7, 0, 0), 1, 22, (0, 0)),
    ((25, 65, 0, 0), 1, 0, (1, 25)), ((25, 3, 0, 0), 1, 0, (1, 25)),
    ((25, 6, 0, 65536), 1, 17, (11, 25)), ((25, 6, 0, 65536), 1, 18, (12, 25)),
    # A move, where a taxon is unseen too; the job's end and beyond it.
    ((47, 6, 1, 0), 1, 17, (11, 47)), ((47, 6, 1, 0), 1, 18, (16, 47)),
    ((54, 6, 1, 1), 1, 17, (11, 54)), ((54, 6, 1, 1), 1, 18, (0, 0)),
    ((60, 6, 1, 0), 1, 17, (11, 60)), ((60, 6, 1, 0), 1, 18, (16, 54)),
    ((60, 6, 0, 0), 1, 17, (11, 60)), ((60, 6, 0, 0), 1, 18, (12, 54)),
]
# For steps over the first bytes of the example job, no table being lent: how many, the state,
# and the refusal and its place. One partition is lent.
SHORT_JOBS = [
    # At the job's length or beyond it no table is read; with a partition the job ends.
    (4, (4, 6, 0, 0), (12, 4)), (4, (4, 6, 1, 0), (0, 0)), (3, (4, 6, 0, 0), (12, 3)),
    (3, (4, 6, 1, 0), (0, 0)), (0, (0, 6, 0, 0), (12, 0)), (0, (0, 6, 1, 0), (0, 0)),
    (4, (5, 6, 1, 0), (11, 5)), (4, (5, 6, 0, 0), (11, 5)),
    # The count cut short, then the table.
    (3, (0, 6, 0, 0), (12, 0)), (4, (0, 6, 0, 0), (0, 0)), (5, (4, 6, 0, 0), (12, 4)),
    (6, (4, 6, 0, 0), (12, 4)), (7, (4, 6, 0, 0), (12, 4)), (24, (4, 6, 0, 0), (12, 4)),
    (25, (4, 6, 0, 0), (11, 4)),
]

# For a number of taxa and a text that is no tree, the place.
NEWICK_PLACES = [
    (4, b"", 0), (4, b"(0,1,2", 5), (4, b"((((", 3), (4, b" (", 0),
    (11, b"(1,1", 4), (11, b"(1,1,", 4), (4, b"(01", 2), (4, b"(0,01", 3),
    (4, b"((0,1),(2,3))", 13), (4, b"((0,1),(2,3));\n", 14),
    (4, b"((0,1),2:1,3);", 8), (4, b"((0,1)4,2,3);", 6), (4, b"((0,1,2", 5),
    (4, b"(0,1);", 4), (5, b"((0,1),(2,3));", 12), (4, b"((0,4", 4),
]
# One tree of 4 taxa in several texts: the table is the same for all of them.
NEWICK_TABLE = bytes.fromhex("0004 0104 0205 0305 0405")
NEWICK_TEXTS = [b"((0,1),(2,3));", b"((0,1),2,3);", b"(3,(1,0),2);",
                b"(3,((1,0),2));"]


def number_of(function, *arguments):
    """The number with which the call is refused, or 0."""
    try:
        function(*arguments)
    except tusvlane.Refused as refused:
        return refused.number
    return 0


def check_document():
    """The example, the case table and what follows it."""
    assert tusvlane.listing(EXAMPLE) == (
        b"1 1 changed 2\n1 2 same 0\n1 saved 1 pt5\nend 1\n")
    assert tusvlane.listing(EXAMPLE[:-1] + b"\3") == b"refused 9 at 47\n"
    for move, taxa, distance in DISTANCES:
        assert tusvlane.judge_one(6, TREE_S, partition_of(taxa), move) == distance
    for move, changed in AFTER:
        rows = tusvlane.rows_of(TREE_S)
        for number, row in changed.items():
            rows[number] = row
        assert tusvlane.apply_move(6, TREE_S, move) == tusvlane.table_of(rows)
    for move, number in REFUSED_MOVES:
        assert number_of(tusvlane.apply_move, 6, TREE_S, move) == number
    assert number_of(tusvlane.check_tree, 3, b"") == 1
    assert number_of(tusvlane.check_tree, 65, b"") == 1
    apart = bytes.fromhex("0001 0405 0405 0204 0305")
    assert number_of(tusvlane.check_tree, 4, apart) == 5
    assert number_of(tusvlane.judge_one, 6, TREE_S, 1 << 6, (1, 4, 3, 5)) == 6


def partition_of(taxa):
    """The taxa as a partition."""
    return sum(1 << taxon for taxon in taxa)


def check_numbers():
    """Lists and comparisons on small trees."""
    after_spr = tusvlane.apply_move(6, TREE_S, (2, 0, 7, 0))
    for tree, lists in [(TREE_S, LISTS), (after_spr, LISTS_AFTER_SPR)]:
        for taxa, numbers in lists:
            assert tusvlane.induced_splits(6, tree, partition_of(taxa), 9) == numbers
    for move, taxa, there, back in COMPARISONS:
        after = tusvlane.apply_move(6, TREE_S, move)
        assert tusvlane.compare(6, TREE_S, after, partition_of(taxa)) == there
        assert tusvlane.compare(6, after, TREE_S, partition_of(taxa)) == back


def line_of(n):
    """The table of n taxa along a line: row v is that of taxon v, or joins nodes v and v+1."""
    rows = [(0, n)] + [(taxon, n - 1 + taxon) for taxon in range(1, n - 1)]
    rows += [(n - 1, 2 * n - 3)] + [(inner, inner + 1) for inner in range(n, 2 * n - 3)]
    return tusvlane.table_of(rows)


def check_line():
    """The list of a tree of 43 taxa along a line: no split is written by more than 21 taxa."""
    numbers = tusvlane.induced_splits(43, line_of(43), 2 ** 43 - 1, 83)
    lower = [2 ** size - 1 for size in range(2, 22)]
    upper = [2 ** 43 - 2 ** size for size in range(22, 42)]
    assert numbers == sorted([1 << taxon for taxon in range(43)] + lower + upper)


def saved_job(last_bytes, moves):
    """A job on tree S: partitions by their last bytes in hex, then moves in hex."""
    job = bytes.fromhex("01 0001 06 02 0012") + TREE_S
    for byte in bytes.fromhex(last_bytes):
        job += bytes.fromhex("03 0008 00000000000000") + bytes([byte])
    for move in moves:
        job += bytes.fromhex("04 0004" + move)
    return job


def check_saved():
    """What counts as saved, and the class beside it, on small jobs and on one large tree."""
    for last_bytes, moves, listing in SAVED:
        assert tusvlane.listing(saved_job(last_bytes, moves)) == listing
    partitions = [partition_of(taxa) for taxa in SAVED_ON_LINE]
    _, lines = tusvlane.list_move(64, line_of(64), partitions, (1, 94, 31, 32), 7, 1000)
    assert lines == LINES_ON_LINE


def step_refusal(job, state, table, partitions):
    """The number and the place with which the step is refused, or 0 and 0."""
    try:
        tusvlane.step(job, state, table, partitions, 8192)
    except tusvlane.Refused as refused:
        return refused.number, refused.place
    return 0, 0


def check_unseen():
    """A taxon that is in no partition: in jobs, in move calls and in steps."""
    for last_bytes, after, closing in UNSEEN:
        job = saved_job(last_bytes, []) + bytes.fromhex(after)
        assert tusvlane.listing(job) == closing.encode("ascii") + b"\n"
    for partitions, move, number in UNSEEN_CALLS:
        judged = (6, TREE_S, partitions, move, 64 if number == 0 else 0)
        listed = (6, TREE_S, partitions, move, 1, 100 if number == 0 else 0)
        assert number_of(tusvlane.judge_move, *judged) == number
        assert number_of(tusvlane.list_move, *listed) == number
    assert number_of(tusvlane.judge_one, 6, TREE_S, 0x0F, (1, 4, 3, 5)) == 0
    for partition, number in [(2 ** 64 - 1, 0), (2 ** 64 - 2, 16), (2 ** 63 - 1, 16)]:
        on_line = (64, line_of(64), [partition], (1, 94, 31, 32), 1)
        assert number_of(tusvlane.judge_move, *on_line) == number
    job = saved_job("0F", ["01040305"])
    for state, partitions, refusal in UNSEEN_STEPS:
        assert step_refusal(job, state, TREE_S, partitions) == refusal
    # No tree is held: before the first move that is not looked at, after one it is.
    assert step_refusal(job, (36, 6, 1, 0), bytes(18), [0x0F]) == (16, 36)
    assert step_refusal(job, (36, 6, 1, 1), bytes(18), [0x0F]) == (3, 36)


def check_table_room():
    """A table lent too short: before the table it is judged last, after it at once."""
    count = bytes.fromhex("01 0001 06")
    for after, number in TABLE_FAULTS:
        for room in (0, 1, 2, 16, 17, 18, 19, 250):
            job = count + bytes.fromhex(after)
            assert step_refusal(job, (4, 6, 0, 0), bytes(room), []) == (number, 4)
            assert step_refusal(job, (4, 6, 1, 3), bytes(room), [0]) == (number, 4)
    for state, lent, room, refusal in TABLE_STEPS:
        table = TREE_S[:room] + bytes(max(room - len(TREE_S), 0))
        assert step_refusal(EXAMPLE, state, table, [0x0F] * lent) == refusal
    for length, state, refusal in SHORT_JOBS:
        assert step_refusal(EXAMPLE[:length], state, b"", [0x0F]) == refusal
    # What is known after the table, in room just enough, and after the count, with no room.
    known, lines = tusvlane.step(EXAMPLE, (4, 6, 2, 7), bytes(18), [0x0F] * 2, 0)
    assert (known.at, known.taxa, known.table, known.partitions, known.moves) == (
        25, 6, TREE_S, [], 0)
    assert lines == b""
    known, lines = tusvlane.step(EXAMPLE, (0, 64, 2, 7), b"", [0x0F] * 2, 0)
    assert (known.at, known.taxa, known.table, known.partitions, known.moves) == (4, 6, b"", [], 0)
    assert lines == b""


def check_sides():
    """The kept sides are those found by removing each row."""
    pick = random.Random(0)
    for n in range(4, 65):
        table = making.make_tree(pick, n)
        rows = tusvlane.rows_of(table)
        at = tusvlane.rows_at(n, rows)
        for number, side in enumerate(tusvlane.sides(n, table)):
            nodes = tusvlane.reached_nodes(rows, at, rows[number][1], number)
            assert side == sum(1 << node for node in nodes if node < n)
        partition = making.make_partition(pick, n)
        size = bin(partition).count("1")
        members = 2 * size - 3 if size >= 3 else int(size == 2)
        assert len(tusvlane.split_set(n, table, partition)) == members


def check_newick():
    """What the document says of single texts, and the order of refusals."""
    for n, text, place in NEWICK_PLACES:
        assert newick.read(n, text, 0) == ("refused", 14, place)
        assert newick.read(n, text, 250) == ("refused", 14, place)
    for text in NEWICK_TEXTS:
        assert newick.read(4, text, 9) == ("refused", 11)
        assert newick.read(4, text, 10) == ("table", NEWICK_TABLE)
    for n in (0, 3, 65):
        assert newick.read(n, b"", 0) == ("refused", 1)


def check():
    """All of it; a failed assertion names the line."""
    check_document()
    check_numbers()
    check_line()
    check_saved()
    check_unseen()
    check_table_room()
    check_sides()
