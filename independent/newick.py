"""Newick texts of trees, by the grammar, and the table that a text gives.

A member is a label, or `(` member `,` member `)`. The text of a tree is
`(`, two or three members with `,` between them, `);`. The labels are the
taxa in plain decimal, each once. Texts are bytes, labels as well; a list
of labels is a tuple. Nothing else is a text: no blank, no length, no line
feed at the end.

There are three ways to the place of a refusal. The first two share the
halving of lengths, otherwise each is apart:
- `place`: closed groups are joined, then it is asked which numbers of taxa
  a tree with this beginning can have; quick, for any number of taxa;
- `place_by_search`: every way to read the text by the grammar is tried;
  slow with many taxa;
- `place_brute`: all texts are listed; for a handful of taxa.
"""

import functools
import itertools
import re


def labels_of(n):
    """The labels of n taxa."""
    return tuple(b"%d" % taxon for taxon in range(n))


# The texts.

def printed(tree):
    """The text of a tree. A group is a tuple of members, a label a number."""
    return member_text(tree) + b";"


def member_text(member):
    """The text of a member."""
    if isinstance(member, tuple):
        return b"(" + b",".join(map(member_text, member)) + b")"
    return b"%d" % member


def dealt(labels, hands):
    """All ways to deal the labels to so many members, none without one."""
    for owners in itertools.product(range(hands), repeat=len(labels)):
        parts = [tuple(label for label, owner in zip(labels, owners)
                       if owner == hand) for hand in range(hands)]
        if all(parts):
            yield parts


@functools.lru_cache(maxsize=None)
def all_members(labels):
    """The texts of all members that hold exactly these labels."""
    if len(labels) == 1:
        return list(labels)
    return [b"(%s,%s)" % pair for parts in dealt(labels, 2)
            for pair in itertools.product(*map(all_members, parts))]


@functools.lru_cache(maxsize=None)
def all_texts(labels):
    """The texts of all trees with these labels, as a set."""
    return frozenset(
        b"(" + b",".join(members) + b");"
        for hands in (2, 3) for parts in dealt(labels, hands)
        for members in itertools.product(*map(all_members, parts)))


@functools.lru_cache(maxsize=None)
def all_prefixes(labels):
    """Every beginning of every text, the empty and the whole ones too."""
    return frozenset(text[:length] for text in all_texts(labels)
                     for length in range(len(text) + 1))


# The place, by the list of all texts.

def listed_place(labels, text):
    """The place in a text that is no tree; None when it is one."""
    if text in all_texts(labels):
        return None
    length = 0
    while length < len(text) and text[:length + 1] in all_prefixes(labels):
        length += 1
    return length


def place_brute(n, text):
    """The same for n taxa; meant for 4 and 5, as the list grows fast."""
    return listed_place(labels_of(n), text)


# The place, by the sizes that a tree with this beginning can have.

# What may stand after the opening parenthesis, `m` being a member.
INNER_FORMS = ["m,m)"]
OUTERMOST_FORMS = ["m,m);", "m,m,m);"]

TOKEN = re.compile(rb"[0-9]+|.", re.DOTALL)
ONE = frozenset([1])


@functools.lru_cache(maxsize=None)
def sums(first, second, most):
    """The sizes of two things together, as far as they are not too large."""
    return frozenset(one + other for one in first for other in second
                     if one + other <= most)


@functools.lru_cache(maxsize=None)
def member_sizes(most):
    """How many labels a member can hold: 1, and the sum of any two such."""
    sizes = ONE
    while not sums(sizes, sizes, most) <= sizes:
        sizes |= sums(sizes, sizes, most)
    return sizes


def group_sizes(inside, forms, most):
    """The sizes of a group of one of the forms that begins like this.

    Inside it stand marks, and for each member the set of its sizes."""
    begin = "".join(mark if isinstance(mark, str) else "m" for mark in inside)
    found = frozenset()
    for form in forms:
        if form.startswith(begin):
            sizes = [mark for mark in inside if not isinstance(mark, str)]
            sizes += [member_sizes(most)] * form[len(begin):].count("m")
            found |= functools.reduce(
                lambda one, other: sums(one, other, most), sizes)
    return found


def marks_of(labels, text):
    """The marks of a beginning, a label being a member of size 1.

    None when some byte is foreign, or digits are not a label left to use;
    the digits at the end need only begin such a label."""
    left = set(labels)
    marks = []
    for token in TOKEN.finditer(text):
        word = token.group()
        if word in (b"(", b",", b")", b";"):
            marks.append(word.decode("ascii"))
        elif word in left:
            left.remove(word)
            marks.append(ONE)
        elif token.end() == len(text) and any(
                label.startswith(word) for label in left):
            marks.append(ONE)
        else:
            return None
    return marks


def last_before(marks, mark, end):
    """Where the mark stands last before the end; None when nowhere."""
    return max((at for at in range(end) if marks[at] == mark), default=None)


def join_closed(marks, most):
    """Puts one member for each closed group that is not the outermost."""
    while ")" in marks:
        end = marks.index(")")
        start = last_before(marks, "(", end)
        if not start:
            break
        inside = marks[start + 1:end + 1]
        marks[start:end + 1] = [group_sizes(inside, INNER_FORMS, most)]
    return marks


def tree_sizes(marks, most):
    """How many taxa the trees have that begin with these marks.

    No group but the outermost is closed here. Each open one is the last
    member, as far as it goes, of the one around it."""
    groups = []
    for mark in marks:
        if mark == "(":
            groups.append([])
        elif not groups:
            return frozenset()
        else:
            groups[-1].append(mark)
    while len(groups) > 1:
        sizes = group_sizes(groups.pop(), INNER_FORMS, most)
        groups[-1].append(sizes)
    return group_sizes(groups[0] if groups else [], OUTERMOST_FORMS, most)


@functools.lru_cache(maxsize=1 << 16)
def live(labels, text):
    """Whether the text can be continued, by nothing too, to a tree.

    The labels not used yet can be given to the members still to come in
    any order, so that only the number of these members matters."""
    marks = marks_of(labels, text)
    if marks is None:
        return False
    most = len(labels)
    return most in tree_sizes(join_closed(marks, most), most)


def longest_live(test, text):
    """The length of the longest beginning that passes the test.

    When one passes, all shorter ones do, so that lengths can be halved."""
    passed, failed = 0, 1
    while failed <= len(text) and test(text[:failed]):
        passed, failed = failed, 2 * failed
    failed = min(failed, len(text) + 1)
    while failed - passed > 1:
        middle = (passed + failed) // 2
        if test(text[:middle]):
            passed = middle
        else:
            failed = middle
    return passed


def is_tree(labels, text):
    """Whether the text is a tree; nothing live goes on after a semicolon."""
    return text.endswith(b";") and live(labels, text)


def sized_place(labels, text):
    """The place in a text that is no tree; None when it is one."""
    if is_tree(labels, text):
        return None
    return longest_live(functools.partial(live, labels), text)


def place(n, text):
    """The same for n taxa."""
    return sized_place(labels_of(n), text)


def completed(labels, text):
    """A tree that begins with a live text, found byte by byte.

    Every byte is tried until the text stays live; None when none is."""
    while not is_tree(labels, text):
        text = next((text + bytes([byte]) for byte in b"0123456789,();"
                     if live(labels, text + bytes([byte]))), None)
        if text is None:
            return None
    return text


# The place, by a search through all ways to read by the grammar.

PAST = "past the end"


class Reading:
    """All ways to read one text as the beginning of a tree.

    A state is where the reading stands and which labels were used, or
    PAST when the text ended on the way and the rest may be anything."""

    def __init__(self, labels, text):
        """Keeps the labels and the text."""
        self.labels = labels
        self.text = text
        self.known = {}

    def mark(self, byte, state):
        """The states after a single byte."""
        if state == PAST or state[0] == len(self.text):
            return {PAST}
        at, used = state
        return {(at + 1, used)} if self.text[at:at + 1] == byte else set()

    def label(self, state):
        """The states after a label that was not used before."""
        if state == PAST:
            return {PAST}
        at, used = state
        rest = self.text[at:]
        states = set()
        for label in self.labels:
            if label not in used and rest.startswith(label):
                states.add((at + len(label), used | {label}))
            elif label not in used and label.startswith(rest):
                states.add(PAST)
        return states

    def member(self, size, state):
        """The states after a member with so many labels."""
        if (size, state) not in self.known:
            if size == 1:
                states = self.label(state)
            else:
                states = set()
                for first in range(1, size):
                    sizes = (first, size - first)
                    states |= self.group(sizes, state)
            self.known[size, state] = states
        return self.known[size, state]

    def group(self, sizes, state):
        """The states after a group whose members have these sizes."""
        states = {state}
        for number, size in enumerate(sizes):
            byte = b"," if number else b"("
            states = self.after(self.mark, byte, states)
            states = self.after(self.member, size, states)
        return self.after(self.mark, b")", states)

    @staticmethod
    def after(part, what, states):
        """The states after a part that begins in any of the states."""
        return set().union(*(part(what, state) for state in states))

    def trees(self):
        """The states after a tree, its members being of any sizes."""
        count = len(self.labels)
        states = set()
        for sizes in itertools.chain(
                itertools.product(range(1, count), repeat=2),
                itertools.product(range(1, count), repeat=3)):
            if sum(sizes) == count:
                states |= self.group(sizes, (0, frozenset()))
        return self.after(self.mark, b";", states)


def readable(labels, text):
    """Whether some way to read reaches the end of the text or beyond it."""
    states = Reading(labels, text).trees()
    return PAST in states or (len(text), frozenset(labels)) in states


def searched_place(labels, text):
    """The place in a text that is no tree; None when it is one."""
    if (len(text), frozenset(labels)) in Reading(labels, text).trees():
        return None
    return longest_live(functools.partial(readable, labels), text)


def place_by_search(n, text):
    """The same for n taxa."""
    return searched_place(labels_of(n), text)


# The table.

def table_of(n, text):
    """The table of a text that is a tree.

    The first closing parenthesis closes the group that gets the next
    number; put in its place, the number is a member like any other."""
    marks = [int(word) if word.isdigit() else word.decode("ascii")
             for word in TOKEN.findall(text)]
    rows = {}
    inner = n
    while len(marks) > 2:
        end = marks.index(")")
        start = last_before(marks, "(", end)
        members = [mark for mark in marks[start + 1:end] if mark != ","]
        if start == 0 and len(members) == 2:
            rows[min(members)] = members
        else:
            for member in members:
                rows[member] = [member, inner]
        marks[start:end + 1] = [inner]
        inner += 1
    return bytes(end for number in range(2 * n - 3)
                 for end in sorted(rows[number]))


def read(n, text, room):
    """The answer of the call that reads a text into so many bytes."""
    if not 4 <= n <= 64:
        return ("refused", 1)
    where = place(n, text)
    if where is not None:
        return ("refused", 14, where)
    if room < 2 * (2 * n - 3):
        return ("refused", 11)
    return ("table", table_of(n, text))
