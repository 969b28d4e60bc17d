# Sourced by scripts, at the top of the repository: a folder `work` for what they write, which goes at their end; counts of what was
# well and what wasn't; programs with a refused growth of memory.
# shellcheck shell=sh
work=$(mktemp -d) || exit 2
trap 'rm -rf "$work"' EXIT
trap 'exit 2' HUP INT TERM
passed=0
failed=0
: > "$work/nothing"

# Counts one that is well.
well() {
    passed=$((passed + 1))
}

# Counts one that isn't, says why, and shows files: wrong WHY [FILE ..].
wrong() {
    failed=$((failed + 1))
    echo "$1"
    shift
    [ $# -eq 0 ] || cat "$@"
}

# Shows how what came differs from what was due, where it does: differs WANTED GOT
differs() {
    cmp -s "$1" "$2" || diff -U 2 --label wanted --label got "$1" "$2" | head -n 20
}

# Prints the counts, as the last line of a script and its status.
counted() {
    echo "$passed passed, $failed failed"
    [ "$failed" -eq 0 ] && [ "$passed" -gt 0 ]
}

# Builds a program where it isn't there, and ends with what that printed where it can't: build PROGRAM CRATE COMMAND ..
build() {
    built=$1
    crate=$2
    shift 2
    [ -x "$built" ] || (cd "crates/$crate" && "$@") > "$work/log" 2>&1 < /dev/null
    [ -x "$built" ] || { cat "$work/log"; exit 2; }
}

# Builds the program of a crate where it isn't there: program_of CRATE
program_of() {
    build "crates/$1/out/$1" "$1" rt run
}

# Prints how a program is called, in words without spaces: that of the crate of its name, or an example by its word: called NAME
called() {
    case $1 in
    watch | store | kv | relay | jobs | pool) echo "crates/examples/out/examples $1" ;;
    *) echo "crates/$1/out/$1" ;;
    esac
}

# Builds the tests of a crate where they aren't there: tests_of CRATE
tests_of() {
    build "crates/$1/out/$1_tests" "$1" rt test
}

# Runs a command, and keeps what it prints in `out` and `err`, and its status: runs COMMAND ..
runs() {
    "$@" > "$work/out" 2> "$work/err"
    status=$?
}

# Runs a command that reads, writes, grows memory or makes threads with that refused: the first, the second, .. (growth, read, write), or one
# and all after it (growths, threads). Keeps what `runs` keeps; false where there was none to refuse: refused KIND NUMBER COMMAND ..
refused() {
    kind=$1
    number=$2
    shift 2
    [ -e "$work/refuse.so" ] || sh tests/refuse "$work/refuse.so" || exit 2
    rm -f "$work/told"
    REFUSE_KIND=$kind REFUSE_AT=$number REFUSE_TOLD="$work/told" LD_PRELOAD="$work/refuse.so" "$@" > "$work/out" 2> "$work/err"
    status=$?
    [ -e "$work/told" ]
}

# Copies the repository, what isn't committed too, to a folder: copy_to FOLDER
copy_to() {
    mkdir "$1" || exit 2
    git ls-files -z --cached --others --exclude-standard |
        tar --null --files-from=- --ignore-failed-read -cf - 2> "$work/unread" | tar -xf - -C "$1" || exit 2
}

# Makes a folder of links to all commands but the kit's: without_kit FOLDER
without_kit() {
    mkdir "$1" || exit 2
    echo "$PATH" | tr : '\n' | while IFS= read -r commands; do ln -s "$commands"/* "$1/" 2> "$work/unread"; done
    rm -f "$1/rt"
}

# Prints the names of the crates, one a line.
crates() {
    sed -n 's/^\([a-z][a-z_0-9]*\)[^#]*:.*/\1/p' crates.txt
}

# Prints how many wrong bodies a folder has: edits_in FOLDER
edits_in() {
    if [ -d "$1" ]; then find "$1" -maxdepth 1 -name '*.edit' | wc -l; else echo 0; fi
}
