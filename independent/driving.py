"""Makes described calls through calls.c, and compares the answers."""

import itertools
import os
import shutil
import subprocess
import sys

import calls
import running

LIBRARY = os.environ.get("TUSVLANE_LIB", os.path.join(
    running.TOP, "target", "staticlib", "libtusvlane.a"))
DRIVER = os.path.join(running.HERE, "build", "calls")
BATCH = 500
LONGEST_WAIT = 600
WRONG = {1: "touched a guard byte", 2: "answers differently on other memory"}


def compiler():
    """The C compiler that makes programs for x86-64."""
    name = "gcc" if running.on_x86() else "x86_64-linux-gnu-gcc"
    if shutil.which(name) is None:
        package = "gcc" if running.on_x86() else "gcc-x86-64-linux-gnu"
        sys.exit("%s is missing; this brings it: apt-get install %s"
                 % (name, package))
    return name


def build_driver():
    """Compiles calls.c with the library, statically: no loader is needed."""
    if not os.path.exists(LIBRARY):
        sys.exit("%s is not built; this builds it: tools/build tusvlane"
                 % os.path.relpath(LIBRARY, running.TOP))
    os.makedirs(os.path.dirname(DRIVER), exist_ok=True)
    subprocess.run(
        [compiler(), "-std=c11", "-Wall", "-Wextra", "-g", "-O1", "-static",
         "-I", os.path.join(running.TOP, "include"),
         os.path.join(running.HERE, "calls.c"), LIBRARY, "-o", DRIVER],
        check=True)


def answers(batch):
    """All that the driver writes for the calls, shorter where it died."""
    given = b"".join(call.described() for call in batch)
    try:
        return subprocess.run(
            running.command(DRIVER), input=given, stdout=subprocess.PIPE,
            timeout=LONGEST_WAIT, check=False).stdout
    except subprocess.TimeoutExpired as expired:
        return expired.stdout or b""


def difference(wrote, expected):
    """What is wrong with an answer, in words; nothing when nothing is."""
    if wrote == expected:
        return ""
    if len(wrote) < len(expected):
        return "does not come back"
    wrong = int.from_bytes(wrote[:8], "little")
    return WRONG.get(wrong, "differs")


def compare_batch(batch, start, tally):
    """Makes a batch of calls and compares each answer with the reference."""
    given = answers(batch)
    at = 0
    for number, call in enumerate(batch, start):
        expected = calls.expect(call)
        refusal = expected.numbers[0]
        ending = running.ending_name(refusal) if refusal else "accepted"
        tally.met[ending] += 1
        tally.met[call.function] += 1
        wanted = expected.as_bytes()
        wrote = given[at:at + len(wanted)]
        at += len(wanted)
        what = difference(wrote, wanted)
        if what:
            text = "%s\n%s\n%s\n" % (
                call.described().hex(), wanted.hex(), wrote.hex())
            tally.differ("different-call-%d.hex" % number, "call %d of %s %s"
                         % (number, call.function, what), text)
        if what == "does not come back":
            return number + 1
    return start + len(batch)


def compare(made, tally):
    """Makes all calls in batches and says how many there were.

    A call that does not come back ends its batch; the rest is made anew."""
    waiting = []
    done = 0
    while True:
        waiting += itertools.islice(made, BATCH - len(waiting))
        if not waiting:
            return done
        after = compare_batch(waiting, done, tally)
        waiting = waiting[after - done:]
        done = after
