# shellcheck shell=sh
# What run-c and run-rust share. POSIX sh. It is read by them, and not run by
# itself.

set -u
top=$(dirname "$(dirname "$(realpath "$0")")")
# shellcheck source-path=SCRIPTDIR source=../tools/common.sh
. "$top/tools/common.sh"

machine=$(uname -m)
made=$top/target/clients

# Says that a command is missing, and how to install it.
want() { # COMMAND PACKAGE
    command -v "$1" >/dev/null ||
        fail "$1 is missing. Install it: apt-get install $2"
}

# Writes the archive, where it is not there or not of the present files.
archive() {
    mkdir -p "$made"
    build_library
}

# Runs a compiled client, shows what it prints and compares it with the file.
run_and_compare() { # PROGRAM
    "$top/tools/run-x86" "$1" >"$1.out" || fail "the client ended with status $?"
    cat "$1.out"
    cmp "$1.out" "$top/clients/output.txt" >&2 ||
        fail "different from clients/output.txt"
    echo "same as clients/output.txt"
}
