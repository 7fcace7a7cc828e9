"""Shows that the tests of the command ./saltreeve can tell a faulty command from a sound one.

Here are a stand-in for the command and one for its program, both plain, and edits that plant one fault each. The
program takes `why`, a file and the words of a question, or `check` and a file, as the stand-in for the command hands
them over.
"""

import tempfile
from pathlib import Path

COMMAND = r"""#!/usr/bin/env bash
set -euo pipefail
crate=tool
root=$(dirname "$(readlink -f "${BASH_SOURCE[0]}")")
program=$root/crates/$crate/out/$crate
status=3
trap 'exit "$status"' EXIT
trap '' PIPE

usage() {
    cat <<'END'
  ./saltreeve why FILE [QUESTION ..]   says why a cell or a finding holds
  ./saltreeve check FILE               checks a sheet of either edition

A question is a statement, or a line that begins with finding.
Exit status: 0 nothing found, 1 something found, 2 refused, 3 not done.
END
}

fail() {
    printf 'saltreeve: %s\n' "$*" >&2
    exit
}

help() {
    [[ $1 -eq 0 ]] || fail "--help stands alone"
    usage 2>/dev/null || fail "the text could not be written to standard output"
    status=0
    exit
}

progress() {
    grep --line-buffered -E '^rt: |: error' | grep --line-buffered -vE 'unchanged since|^rt: ok' >&2 || true
}

build() {
    command -v rt >/dev/null || fail "rt is missing"
    [[ -x $program ]] || echo "saltreeve: building the program" >&2
    (cd "$root/crates/$crate" && rt run) </dev/null 2>&1 >/dev/null | progress || fail "the program was not built"
    [[ -x $program ]] || fail "rt has left no program"
}

run() {
    local text verdict
    text=$("$program" "$@" </dev/null) || fail "the program could not be run"
    case ${text##*$'\n'} in
    $'total\t0') verdict=$((1 - ($# == 2))) ;;
    $'total\t'*) verdict=1 ;;
    $'refused\t'*) verdict=2 ;;
    *) fail "the program has not printed its last line" ;;
    esac
    printf '%s\n' "$text" 2>/dev/null || fail "the text could not be written to standard output"
    status=$verdict
}

case ${1-} in
--help) help $(($# - 1)) ;;
why) ;;
check) [[ $# -le 2 || $2 == --help ]] || fail "one sheet at a time" ;;
*) fail "there is no verb '${1-}' (./saltreeve --help says what there is)" ;;
esac
case ${2-} in
--help) help $(($# - 2)) ;;
-*) fail "there is no option '$2'; a file of that name is ./$2" ;;
esac
[[ $# -ge 2 ]] || fail "the file of the sheet is missing"
[[ -e $2 ]] || fail "there is no file '$2'"
[[ ! -d $2 ]] || fail "'$2' is a folder and no sheet"
[[ -r $2 ]] || fail "the file '$2' may not be read"
build
run "$@"
"""

PROGRAM = r"""#!/usr/bin/env python3
import os
import sys

sys.dont_write_bytecode = True
sys.path.insert(0, os.environ["SALTREEVE_TESTS"])

import oracle_why


# A reason for a cell.
def reason(told, cell):
    kept = list(told.statements)
    for line in list(kept):
        fewer = [other for other in kept if other != line]
        kept = fewer if oracle_why.follows([told.statements[other] for other in fewer], cell) else kept
    return kept


# The text for a question.
def answer(told, question):
    due = oracle_why.due(told, ("command", question))
    if due.refusal:
        return oracle_why.printed("refused", *due.refusal)
    return oracle_why.reason_text(told, due, reason(told, due.cell))


# The text for all findings.
def answers(told):
    for line in told.outcome.text.splitlines(keepends=True):
        yield line
        below = answer(told, line.encode()) if line.startswith("finding") else "refused"
        yield "" if below.startswith("refused") else below


told = oracle_why.told_by(open(sys.argv[2], "rb").read())
question = "\t".join(sys.argv[3:]).encode()
if sys.argv[1] == "check":
    sys.stdout.write(told.outcome.text)
else:
    sys.stdout.write(answer(told, question) if sys.argv[3:] else "".join(answers(told)))
"""

# The edits of the command: a name, a text in it, and what takes its place.
COMMAND_FAULTS = (
    ("a reason of no lines is nothing found", "verdict=$((1 - ($# == 2)))", "verdict=0"),
    ("total 0 is something found", "verdict=$((1 - ($# == 2)))", "verdict=1"),
    ("findings are nothing found", "$'total\\t'*) verdict=1", "$'total\\t'*) verdict=0"),
    ("a refusal is something found", "verdict=2", "verdict=1"),
    ("another last line is passed on", '*) fail "the program has not printed its last line"', "*) verdict=0"),
    ("not done is 1", "status=3", "status=1"),
    ("words are joined by blanks", 'run "$@"\n', 'file=$2; shift 2; run why "$file" "$*"\n'),
    ("words are parted again", 'run "$@"\n', "run why \"$2\" ${@:3}\n"),
    ("the first word alone is passed on", 'run "$@"\n', 'run "${@:1:3}"\n'),
    ("the question is lost", 'run "$@"\n', 'run "${@:1:2}"\n'),
    ("a missing file is passed on", "[[ -e $2 ]] || fail \"there is no file '$2'\"", ":"),
    ("a folder is passed on", "[[ ! -d $2 ]] || fail \"'$2' is a folder and no sheet\"", ":"),
    ("no file is asked for", '[[ $# -ge 2 ]] || fail "the file of the sheet is missing"', "[[ $# -ge 2 ]] || fail what"),
    ("options are files", "-*) fail \"there is no option '$2'; a file of that name is ./$2\" ;;", ""),
    ("any verb is why", "*) fail \"there is no verb '${1-}' (./saltreeve --help says what there is)\" ;;", ""),
    ("check takes more words", 'check) [[ $# -le 2 || $2 == --help ]] || fail "one sheet at a time" ;;', "check) ;;"),
    ("there is no check", 'check) [[ $# -le 2 || $2 == --help ]] || fail "one sheet at a time" ;;\n', ""),
    ("check is why", 'build\nrun "$@"', 'build\nrun why "${@:2}"'),
    ("the help leaves out the check", "  ./saltreeve check FILE               checks a sheet of either edition\n", ""),
    ("help takes more words", '[[ $1 -eq 0 ]] || fail "--help stands alone"', ":"),
    ("help ends with 3", "status=0\n", "\n"),
    ("help builds the program", "help() {", "help() {\n    build"),
    ("help does not say that it failed", 'usage 2>/dev/null || fail "the text could not be written to standard output"',
     "usage 2>/dev/null || true"),
    ("why has no help", "case ${2-} in\n--help) help $(($# - 2)) ;;", "case ${2-} in"),
    ("the help leaves out a status", "2 refused, ", ""),
    ("a text that is not written is passed over",
     '"$text" 2>/dev/null || fail "the text could not be written to standard output"',
     '"$text" 2>/dev/null || true'),
    ("an output that nobody reads ends it by a signal", "trap '' PIPE\n", ""),
    ("the last line feed is lost", "printf '%s\\n' \"$text\"", "printf '%s' \"$text\""),
    ("messages go to standard output", "printf 'saltreeve: %s\\n' \"$*\" >&2", "printf 'saltreeve: %s\\n' \"$*\""),
    ("what rt says goes to standard output", "'unchanged since|^rt: ok' >&2", "'unchanged since|^rt: ok'"),
    ("what rt says is all shown", "| progress ||", ">&2 ||"),
    ("a build that failed is passed over", '| progress || fail "the program was not built"', "| progress || true"),
    ("a program that failed is passed over", '|| fail "the program could not be run"', "|| true"),
    ("the program is never built again", 'build\nrun "$@"', '[[ -x $program ]] || build\nrun "$@"'),
    ("a link to the command is not followed", '$(readlink -f "${BASH_SOURCE[0]}")', "${BASH_SOURCE[0]}"),
    ("the file is looked for beside the command", 'run "$@"\n', 'cd "$root"; run "$@"\n'),
    ("a file is left", "build\nrun", 'build\n: >"$TMPDIR/left"\nrun'),
)

# The edits of the program.
PROGRAM_FAULTS = (
    ("all statements are the reason", "kept = list(told.statements)\n", "return list(told.statements)\n"),
    ("findings have no reasons", 'yield "" if below.startswith("refused") else below', 'yield ""'),
    ("refusals stand below findings", 'yield "" if below.startswith("refused") else below', "yield below"),
    ("the total comes twice", '"".join(answers(told))', '"".join(answers(told)) + "total\\t0\\n"'),
    ("the first finding alone is explained", '"".join(answers(told))', '"".join(list(answers(told))[:2])'),
    ("words are joined by blanks", '"\\t".join(sys.argv[3:])', '" ".join(sys.argv[3:])'),
    ("check gives reasons", 'sys.argv[1] == "check"', 'sys.argv[1] == "Check"'),
    ("check has the smaller store", "told.outcome.text)\n", "told.outcome_in(4528).text)\n"),
    ("check has edition 1 for few items", "told.outcome.text)\n",
     "told.outcome.text if told.outcome.counts.items > 128 or told.size.row == 2 else told.outcome_in(4528).text)\n"),
    ("check has the larger limit for edition 1", "told.outcome.text)\n", "told.outcome.text.replace('130\\t18', '0\\t1'))\n"),
    ("why has the smaller store", "told = oracle_why.told_by(open(sys.argv[2], \"rb\").read())",
     "told = oracle_why.told_by(open(sys.argv[2], \"rb\").read().replace(b'sheet\\t2\\n', b'sheet\\t1\\n', 1))"),
    ("an empty question is none", "if sys.argv[3:] else", "if question else"),
)


# A text with an edit; the edit has to fit.
def edited(text, name, old, new):
    if old not in text:
        raise AssertionError(f"the fault does not fit: {name}")
    return text.replace(old, new)


# What is wrong with a command and a program; `failure` gives what a test says, or None.
def tried(failure, command, program):
    with tempfile.TemporaryDirectory() as folder:
        path = Path(folder) / "program"
        path.write_text(program)
        return failure(command, path)


# Tries the sound stand-ins and all faulty ones; 0 if the test judges each rightly.
def run(failure):
    found = tried(failure, COMMAND, PROGRAM)
    wrong = [f"the sound stand-in does not pass: {found}"] if found else []
    wrong += [f"not found out: {name}" for name, *edit in COMMAND_FAULTS
              if tried(failure, edited(COMMAND, name, *edit), PROGRAM) is None]
    wrong += [f"not found out: {name}" for name, *edit in PROGRAM_FAULTS
              if tried(failure, COMMAND, edited(PROGRAM, name, *edit)) is None]
    for line in wrong:
        print(f"saltreeve self-test: {line}")
    if not wrong:
        print(f"saltreeve self-test: the sound stand-ins pass, {len(COMMAND_FAULTS) + len(PROGRAM_FAULTS)} faulty ones "
              "are all found out")
    return 1 if wrong else 0
