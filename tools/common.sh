# shellcheck shell=sh
# What the scripts of this repository share. POSIX sh. It is read by them, and
# not run by itself. They set `top`, the folder of the repository.

: "${top:?}"

fail() {
    printf '%s: %s\n' "$(basename "$0")" "$*" >&2
    exit 1
}

# The archive of the library, for callers in C and Rust.
library=$top/target/staticlib/libtusvlane.a

# Whether the file is there and no file that is proved is newer. What rt keeps
# lies in the folders out/.
fresh() { # FILE
    [ -f "$1" ] && [ -z "$(find "$top/crates" "$top/crates.txt" \
        -name out -prune -o -type f -newer "$1" -print)" ]
}

# Whether rt, the command of the Rattle kit, is there.
want_rt() {
    command -v rt >/dev/null ||
        fail "rt, the command of the Rattle kit, is not found"
}

# Runs rt in the folder of a crate. What it says goes to a file of target/, and
# to standard error if it fails.
prove() { # WORD NAME
    want_rt
    mkdir -p "$top/target"
    said=$top/target/$1-$2.say
    (cd "$top/crates/$2" && rt "$1") </dev/null >"$said" 2>&1 && return
    cat "$said" >&2
    fail "rt $1 failed in crates/$2"
}

# Prints the folder of the kit's tools for this machine. On a machine that is
# not x86-64 an emulator is there, which runs programs for x86-64.
emulator_folder() {
    kit=${RATTLE_HOME:-}
    if [ -z "$kit" ]; then
        want_rt
        kit=$(dirname "$(dirname "$(realpath "$(command -v rt)")")")
    fi
    folder=$kit/on/$(uname -m)/toolchain
    [ -x "$folder/bin/qemu-x86_64" ] || fail "no emulator at $folder/bin"
    echo "$folder"
}

# The file of a program that is built.
program() { # NAME
    echo "$top/crates/$1/out/$1"
}

# Proves and builds a program, where it is not there or a file of crates/ has
# changed since. It is run too, on empty input. The mark that it is built has
# the time at which the check began, so that a file changed meanwhile counts as
# newer.
build_program() { # NAME
    mark=$top/target/$1.built
    [ -x "$(program "$1")" ] && fresh "$mark" && return
    echo "proving the program, which can take some minutes" >&2
    mkdir -p "$top/target"
    : >"$mark.new"
    prove run "$1"
    mv "$mark.new" "$mark"
}

# Proves the library and writes the archive, where it is not there or not of
# the present files.
build_library() {
    mark=$top/target/tusvlane.built
    [ -f "$library" ] && fresh "$mark" && return
    echo "proving the library, which can take some minutes" >&2
    mkdir -p "$(dirname "$library")"
    : >"$mark.new"
    prove lib tusvlane_c
    cp "$top/crates/tusvlane_c/out/libtusvlane_c.a" "$library" ||
        fail "the archive was not written"
    mv "$mark.new" "$mark"
}

# Runs a program that is built. It has no status of its own: what it says on
# standard error tells that it failed, and is put into `said`.
run_program() { # NAME
    exec 3>&1
    said=$("$top/tools/run-x86" "$(program "$1")" 2>&1 >&3) ||
        said="${said:-the program was stopped}"
    [ -z "$said" ]
}
