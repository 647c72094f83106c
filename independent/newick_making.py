"""Makes Newick texts, right ones and wrong ones.

What a made text was meant to be decides nothing: the reference says what it
is.
"""

import itertools
import re

import making
import newick
import tusvlane

# Tails that are put after a byte, to see that nothing after it matters.
TAILS = [b"0", b",", b")", b";", b"(", b"\n", b"0,1", b");", b"2,3);", b" "]
LONGEST_WHOLE = 5

FOREIGN = b" \t\r\n\0:.-+[]{}'\"_eEaZ/\x80\xff"


# All short texts.

def alphabet(n):
    """The bytes of a tree's text, a digit one too large, and a blank."""
    digits = b"".join(b"%d" % digit for digit in range(n + 1))
    return [bytes([byte]) for byte in b"()," + b";" + digits + b" "]


def around_live(labels, letters):
    """Each live beginning and one byte more: alone, and before two tails."""
    tails = itertools.cycle(TAILS)
    for prefix in sorted(newick.all_prefixes(labels)):
        for letter in letters:
            yield prefix + letter
            yield prefix + letter + next(tails)
            yield prefix + letter + next(tails)


def short_texts(n):
    """All texts of a few bytes, and all around the live beginnings."""
    letters = alphabet(n)
    texts = set(around_live(newick.labels_of(n), letters))
    for length in range(LONGEST_WHOLE + 1):
        texts.update(map(b"".join,
                         itertools.product(letters, repeat=length)))
    return sorted(texts)


# Texts of trees.

def hung(pick, rows, at, node, row):
    """The member that hangs from the node when the row is removed."""
    others = [number for number in at[node] if number != row]
    if not others:
        return node
    pick.shuffle(others)
    return tuple(
        hung(pick, rows, at, tusvlane.other_end(rows[number], node), number)
        for number in others)


def with_three(pick, n, table):
    """The text of the tree seen from any inner node."""
    rows = tusvlane.rows_of(table)
    at = tusvlane.rows_at(n, rows)
    node = pick.randrange(n, 2 * n - 2)
    return newick.printed(hung(pick, rows, at, node, None))


def with_two(pick, n, table):
    """The text of the tree seen from any row."""
    rows = tusvlane.rows_of(table)
    at = tusvlane.rows_at(n, rows)
    number = pick.randrange(len(rows))
    ends = pick.sample(rows[number], 2)
    return newick.printed(tuple(
        hung(pick, rows, at, end, number) for end in ends))


def comb(pick, n):
    """A tree as deep as the taxa allow, to the left, the right or both."""
    taxa = pick.sample(range(n), n)
    left = pick.choice([0, 1, 0.5])
    hands = pick.choice([2, 3])
    member = taxa.pop()
    while len(taxa) >= hands:
        pair = (member, taxa.pop())
        member = pair if pick.random() < left else pair[::-1]
    members = taxa + [member]
    pick.shuffle(members)
    return newick.printed(tuple(members))


def tree_text(pick, n):
    """The text of any tree of n taxa."""
    way = pick.randrange(5)
    if way == 0:
        return comb(pick, n)
    table = making.make_tree(pick, n)
    return (with_two if way < 3 else with_three)(pick, n, table)


# Faults. Each takes a source of chance, the number of taxa and a text.

def any_byte(pick):
    """A byte: mostly of those that texts have, now and then a foreign one."""
    return bytes([pick.choice([
        pick.choice(b"(),;0123456789"), pick.choice(b"(),;0123456789"),
        pick.choice(FOREIGN), pick.randrange(256)])])


def put(text, start, end, new):
    """The text with other bytes from start to end."""
    return text[:start] + new + text[end:]


def any_place(pick, text):
    """A place in the text, its end included."""
    return pick.randrange(len(text) + 1)


def byte_changed(pick, n, text):
    """One byte is another."""
    place = any_place(pick, text)
    return put(text, place, place + 1, any_byte(pick))


def byte_removed(pick, n, text):
    """One byte is missing."""
    place = any_place(pick, text)
    return put(text, place, place + 1, b"")


def byte_inserted(pick, n, text):
    """One byte too many."""
    place = any_place(pick, text)
    return put(text, place, place, any_byte(pick))


def bytes_exchanged(pick, n, text):
    """Two bytes side by side are exchanged."""
    place = any_place(pick, text)
    return put(text, place, place + 2, text[place:place + 2][::-1])


def cut(pick, n, text):
    """The text ends too soon."""
    return text[:any_place(pick, text)]


def appended(pick, n, text):
    """Something stands behind the text."""
    return text + pick.choice([b"\n", b"\r\n", b" ", b";", b")", b",", b"0",
                               b"(", b"\0", text, any_byte(pick)])


def in_front(pick, n, text):
    """Something stands before the text."""
    return pick.choice([b" ", b"\n", b"(", b"0", b"[&U]", b"\xef\xbb\xbf",
                        b",", any_byte(pick)]) + text


def without_end(pick, n, text):
    """The semicolon or more is missing, or stands twice."""
    return pick.choice([text[:-1], text[:-2], text[:-1] + b"\n",
                        text[:-2] + b";", text[:-2] + b"));"])


def spot(pick, text, pattern):
    """Where the pattern is found, one of its places; the end for none."""
    found = [match.span() for match in re.finditer(pattern, text)]
    return pick.choice(found or [(len(text), len(text))])


def label_other(pick, n, text):
    """A label is one used elsewhere, too large, or written otherwise."""
    start, end = spot(pick, text, rb"[0-9]+")
    old = text[start:end]
    new = pick.choice([
        b"%d" % pick.randrange(n), b"%d" % pick.randrange(n), b"%d" % n,
        b"%d" % (n + 1), b"%d" % pick.randrange(n, 300), b"64", b"99",
        b"100", b"256", b"%d" % (2 ** 64 + pick.randrange(n)),
        b"0" + old, b"00" + old, old + b"0", old[:-1], old[1:], b"+" + old,
        b"-" + old, b"a", b"'" + old + b"'", b" " + old, old + b" ",
        old + b"\n", old * 2])
    return put(text, start, end, new)


def length_added(pick, n, text):
    """A length or a name stands behind a member."""
    _, end = spot(pick, text, rb"[0-9]+|\)")
    return put(text, end, end, pick.choice(
        [b":1", b":0.5", b":", b"x", b"7", b"[a]", b" "]))


def comma_added(pick, n, text):
    """A comma too many, or a member left empty."""
    start, end = spot(pick, text, rb"[(),]")
    place = pick.choice([start, end])
    return put(text, place, place, b",")


def group_of_one(pick, n, text):
    """A label alone in a group, or a group without any."""
    start, end = spot(pick, text, rb"[0-9]+")
    old = text[start:end]
    return put(text, start, end, pick.choice(
        [b"(" + old + b")", b"()", b"(" + old + b",)", b"(," + old + b")",
         b"((" + old + b"))"]))


def label_grown(pick, n, text):
    """A label becomes a group with labels that are used elsewhere."""
    start, end = spot(pick, text, rb"[0-9]+")
    members = [text[start:end]] + [b"%d" % pick.randrange(n + 1)
                                   for _ in range(pick.randint(1, 2))]
    return put(text, start, end, b"(" + b",".join(members) + b")")


def group_opened(pick, n, text):
    """A pair of parentheses is gone: its members join those around it."""
    start, end = spot(pick, text, rb"\([^()]*\)")
    return put(text, start, end, text[start + 1:end - 1])


def group_closed(pick, n, text):
    """Parentheses from one place to another, or around it all."""
    start = pick.choice([0, any_place(pick, text)])
    end = pick.choice([len(text) - 1, any_place(pick, text)])
    start, end = min(start, end), max(start, end)
    return put(text, start, end, b"(" + text[start:end] + b")")


def too_deep(pick, n, text):
    """More groups are opened than the taxa allow, at the start or later."""
    _, end = spot(pick, text, rb"[(,]")
    return put(text, end, end, b"(" * pick.randint(1, pick.choice([3, 200])))


FAULTS = [byte_changed, byte_removed, byte_inserted, bytes_exchanged, cut,
          appended, in_front, without_end, label_other, label_other,
          length_added, comma_added, group_of_one, label_grown, group_opened,
          group_closed, too_deep]


def wrong_text(pick, n):
    """The text of a tree with a fault, now and then with two."""
    text = tree_text(pick, n)
    for _ in range(pick.choice([1, 1, 1, 2])):
        text = pick.choice(FAULTS)(pick, n, text)
    return text


def wild_text(pick, n):
    """Any bytes, or a live beginning followed by any bytes."""
    start = pick.choice([b"", cut(pick, n, tree_text(pick, n))])
    return start + b"".join(any_byte(pick) for _ in range(pick.randrange(40)))


def long_text(pick, n):
    """A text longer than any tree's."""
    piece = pick.choice([b"(", b"(0,", b"0", b",", b")", b";", b"(0,1)",
                         tree_text(pick, n)])
    return (piece * 70000)[:pick.choice([1000, 65535, 65536, 70000])]


def make_text(pick, n):
    """Any text for n taxa."""
    way = pick.randrange(100)
    if way < 25:
        return tree_text(pick, n)
    if way < 90:
        return wrong_text(pick, n)
    if way < 94:
        return wild_text(pick, n)
    if way < 99:
        other = min(max(n + pick.choice([-2, -1, 1, 2]), 4), 70)
        return tree_text(pick, other)
    return pick.choice([b"", b"", b";", long_text(pick, n)])
