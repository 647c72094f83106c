"""What bench/run and bench/stack share: the compiler, the archive, and how
programs are started."""

import os
import platform
import shutil
import subprocess
import sys

ROOT = os.path.dirname(os.path.dirname(os.path.realpath(__file__)))
MADE = os.path.join(ROOT, "target", "bench")
ARCHIVE = os.path.join(ROOT, "target", "staticlib", "libtusvlane.a")

NATIVE = platform.machine() in ("x86_64", "AMD64")
COMPILER = "gcc" if NATIVE else "x86_64-linux-gnu-gcc"
PACKAGE = "gcc" if NATIVE else "gcc-x86-64-linux-gnu"


def stop(why):
    sys.exit("bench: " + why)


def call(words, **more):
    """Runs a command; what it wrote and said."""
    done = subprocess.run(words, capture_output=True, check=False, **more)
    if done.returncode != 0:
        said = (done.stdout + done.stderr).decode(errors="replace")
        stop(" ".join(words) + " failed:\n" + said[-2000:])
    return done


def started(words):
    """The command by which x86-64 words run here, with no shell's start where
    none is needed."""
    return words if NATIVE else [ROOT + "/tools/run-x86"] + words


def build_archive():
    """Builds the proved archive, where there is a compiler to use it with."""
    if not shutil.which(COMPILER):
        stop("no " + COMPILER + "; apt-get install " + PACKAGE)
    os.makedirs(MADE, exist_ok=True)
    call([ROOT + "/tools/build", "tusvlane"])


def compile_c(made, files, *more):
    """Compiles files of bench/ and archives into a program."""
    flags = ["-std=c11", "-O2", "-Wall", "-Wextra", *more]
    flags += [] if NATIVE else ["-static"]
    paths = [os.path.join(ROOT, "bench", f) for f in files]
    call([COMPILER] + flags + ["-o", made] + paths)
