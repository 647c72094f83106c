"""What both comparing programs need: folders, the program's start, the plain lines."""

import collections
import os
import platform
import sys

HERE = os.path.dirname(os.path.abspath(__file__))
TOP = os.path.dirname(HERE)
MOST_KEPT = 10


def on_x86():
    """Whether this machine runs programs for x86-64 itself."""
    return platform.machine() == "x86_64"


def command(program):
    """The words that run a program for x86-64; here directly, to save a shell's start."""
    return [program] if on_x86() else [os.path.join(TOP, "tools", "run-x86"), program]


def arguments(name, unit):
    """COUNT and SEED from the command line, 20000 and 1 where not given."""
    words = sys.argv[1:]
    if len(words) > 2 or not all(word.isdecimal() for word in words):
        sys.exit("use: independent/%s [COUNT [SEED]], COUNT being the number of %s" % (name, unit))
    given = [int(word) for word in words]
    return tuple(given + [20000, 1][len(given):])


def ending_name(number):
    """How a refusal is named in the printed lines."""
    return "refused %d" % number


class Tally:
    """Counts what was met and keeps what was different."""

    def __init__(self):
        """Starts with nothing met."""
        self.met = collections.Counter()
        self.different = 0

    def differ(self, name, what, text):
        """Counts a difference; keeps the first few in files, and says where."""
        self.different += 1
        if self.different > MOST_KEPT:
            return
        path = os.path.join(HERE, name)
        with open(path, "w", encoding="ascii") as file:
            file.write(text)
        print("%s, kept in independent/%s" % (what, name), flush=True)

    def lacking(self, endings, count):
        """The endings met less than once in a thousand."""
        return [ending for ending in endings if self.met[ending] < count // 1000]


def in_order(endings):
    """Endings in the order of their refusal numbers, after those without one."""
    def key(ending):
        """The refusal number last, so that 10 stands after 9."""
        words = ending.split()
        return int(words[-1]) if words[0] == "refused" else 0
    return sorted(endings, key=key)


def print_lacking(tally, endings, count):
    """Prints the endings that were not met often enough, and gives them."""
    lacking = tally.lacking(endings, count)
    for ending in lacking:
        print("%d %s, fewer than %d" % (tally.met[ending], ending, count // 1000))
    return lacking


def close(tally, endings, count):
    """Prints what lacks and how many were different; the exit status."""
    lacking = print_lacking(tally, endings, count)
    print("%d different" % tally.different)
    return 1 if lacking or tally.different else 0
