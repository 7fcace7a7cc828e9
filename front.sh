# What the commands ./check and ./saltreeve share: how they end, their messages, and the building of the program behind
# them. A command sets `name` and `crate`, then sources this file, which lies beside it.

root=$(dirname "$(readlink -f "${BASH_SOURCE[0]}")")
program=$root/crates/$crate/out/$crate

# Whatever ends the command, it ends with this status: 3 until the work is done.
status=3
trap 'exit "$status"' EXIT

# Where nobody reads standard output any more, the writing fails and is told, as 3; the command is not killed by it.
trap '' PIPE

# Says why the work was not done, and ends.
fail() {
    printf '%s: %s\n' "$name" "$*" >&2
    exit
}

# Says that the text went nowhere, and ends.
unwritten() {
    fail "the text could not be written to standard output"
}

# Prints what a command like usage prints, and ends.
show() {
    "$@" 2>/dev/null || unwritten
    status=0
    exit
}

# Asks that a sheet can be read from a file.
readable() {
    [[ -e $1 ]] || fail "there is no file '$1'"
    [[ ! -d $1 ]] || fail "'$1' is a folder and no sheet"
    [[ -r $1 ]] || fail "the file '$1' may not be read"
}

# Passes on which crate rt proves and what it says of it, without the prover's own lines and the crates that are unchanged.
progress() {
    awk '/^rt: chose / { print "rt: proving " $NF; fflush(); next }
        /unchanged since|^rt: (ok|running)/ { next }
        /^rt: |: error/ { print; fflush() }' >&2 || true
}

# Has rt prove and build the program; where nothing has changed since, that takes a moment. rt also runs the program once, here with nothing to read and no words. One call builds at a time.
build() {
    command -v rt >/dev/null || fail "rt is missing: install the Rattle kit and put rt on the PATH (README.md, 'What it needs')"
    [[ -x $program ]] || echo "$name: building the program: everything is proved first, which takes some minutes" >&2
    exec {lock}<"$root/crates.txt"
    ! command -v flock >/dev/null || flock "$lock"
    (cd "$root/crates/$crate" && rt run) </dev/null 2>&1 >/dev/null | progress || fail "the program was not built ('rt run' in crates/$crate says more)"
    exec {lock}<&-
    [[ -x $program ]] || fail "rt has left no program: remove the folder crates/$crate/out and try again"
}

# Passes on the program's text, and ends the command with the status given.
pass_on() {
    printf '%s\n' "$1" 2>/dev/null || unwritten
    status=$2
}
