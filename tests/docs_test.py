"""Runs every example of the documents and every sheet of examples/ and compares what is printed, byte by byte.

    python3 tests/docs_test.py PROGRAM LIBRARY TOOL    PROGRAM reads a sheet on standard input, as `check` does;
                                                       the C examples are compiled and linked with LIBRARY;
                                                       TOOL is the program behind ./saltreeve
    python3 tests/docs_test.py --oracle                the sheets and the commands alone, judged by the oracles

An example of a document is one of these:
    a fenced block marked `sheet` (a whole sheet, with real tabs) or `c` (a whole program), and the block after it, marked
    `output`: exactly what is printed;
    a command in a block marked `console`: a line that begins with `$ `, and the lines below it, which are what is printed.
    Known are `./check FILE`, `./check < FILE`, `./saltreeve check FILE` and `./saltreeve why FILE [QUESTION ..]`. A FILE
    with a slash is one of the repository; a bare name, as in `./check blades.sheet`, stands for the sheet that is shown
    last above the command.
A `c` block without an `output` block after it is no example, but a `sheet` block must have one, or a `console` block.
Blocks with any other mark are passed over. A sheet of examples/ is NAME.sheet, and what is printed for it NAME.out.
A reason that is shown should be the only one that there is: which one is given is otherwise free.
"""

import argparse
import re
import subprocess
import sys
from collections import namedtuple

sys.dont_write_bytecode = True  # keeps the folder of the tests free of build products

import documents
import harness

DOCUMENTS = ("README.md", "docs/*.md", "docs/landings/*.md", "examples/*.md")

# An example: where it stands, its kind ("sheet", "c", "check" or "why", of which the last two are verbs of ./saltreeve),
# the bytes given, for "why" the question (None: there is none), and the bytes that are to be printed.
Example = namedtuple("Example", "place kind given question printed")


# The bytes of the sheet that a command names.
def named_sheet(place, name, shown):
    if "/" in name:
        return (harness.ROOT / name).read_bytes()
    if shown is None:
        raise SystemExit(f"docs: {place}: no sheet stands above this command, for which {name} could stand")
    return shown


# The example that a command is; `shown` are the bytes of the sheet that is shown last above it.
def command_example(place, command, printed, shown):
    known = re.fullmatch(r"\./check (?:< )?(\S+)|\./saltreeve (?:check (\S+)|why (\S+)((?: \S+)*))", command)
    if known is None:
        raise SystemExit(f"docs: {place}: this command is not known here: {command}")
    checked, by_edition, asked, question = known.groups()
    sheet = named_sheet(place, checked or by_edition or asked, shown)
    if asked is None:
        return Example(place, "sheet" if checked else "check", sheet, None, printed)
    return Example(place, "why", sheet, "\t".join(question.split()) or None, printed)


# The examples of one document.
def document_examples(path):
    found, shown, blocks = [], None, documents.blocks(path.read_text())
    for block, after in zip(blocks, [*blocks[1:], None]):
        place = f"{path.relative_to(harness.ROOT)}, line {block.line}"
        follows = after.kind if after is not None else None
        if block.kind == "sheet":
            shown = block.text.encode()
        if block.kind in ("sheet", "c") and follows == "output":
            found.append(Example(place, block.kind, block.text.encode(), None, after.text.encode()))
        elif block.kind == "sheet" and follows != "console":
            raise SystemExit(f"docs: {place}: no block marked `output` or `console` follows this sheet")
        elif block.kind == "console":
            found += [command_example(place, command, text.encode(), shown)
                      for command, text in documents.commands(block.text)]
    return found


# The sheets of examples/, each with what stands beside it.
def sheet_examples(folder):
    sheets, outs = (sorted(folder.glob(f"*.{suffix}")) for suffix in ("sheet", "out"))
    if [path.stem for path in sheets] != [path.stem for path in outs]:
        raise SystemExit("docs: examples/ has a NAME.sheet without its NAME.out, or the other way round")
    return [Example(f"examples/{sheet.name}", "sheet", sheet.read_bytes(), None, out.read_bytes())
            for sheet, out in zip(sheets, outs)]


# All examples, in order.
def all_examples():
    files = [path for pattern in DOCUMENTS for path in sorted(harness.ROOT.glob(pattern))]
    found = [example for path in files for example in document_examples(path)]
    return found + sheet_examples(harness.ROOT / "examples")


# What an example's place is called in the name of a file.
def file_name(example):
    return "example_" + "".join(c if c.isalnum() else "_" for c in example.place)


# What the program prints for a sheet.
def program_printed(program, sheet):
    return subprocess.run([program], input=sheet, check=True, stdout=subprocess.PIPE).stdout


# What the program behind ./saltreeve prints for a verb and a sheet, and a question if there is one.
def tool_printed(tool, example):
    harness.BUILD.mkdir(parents=True, exist_ok=True)
    path = harness.BUILD / f"{file_name(example)}.sheet"
    path.write_bytes(example.given)
    words = [tool, example.kind, path] + ([] if example.question is None else [example.question])
    return subprocess.run(words, check=True, stdout=subprocess.PIPE).stdout


# What the oracle says is to be printed for a sheet.
def oracle_printed(sheet):
    import oracle_sheets
    return oracle_sheets.judge(sheet).text.encode()


# What the oracle says is to be printed for a sheet with the store that its edition needs.
def oracle_checked(sheet):
    import oracle_why
    return oracle_why.told_by(sheet).outcome.text.encode()


# The text that the document has for a question, if the oracle of reasons allows it, as any one reason will do.
def oracle_reason(example):
    import oracle_why
    return example.printed if oracle_why.allows(example.given, example.question, example.printed) else b"another text"


# What is printed for an example; None if it is not run.
def printed(chosen, example):
    if example.kind == "c":
        return None if chosen.oracle else documents.printed_by_c(file_name(example), example.given.decode(), chosen.library)
    if example.kind == "why":
        return oracle_reason(example) if chosen.oracle else tool_printed(chosen.tool, example)
    if example.kind == "check":
        return oracle_checked(example.given) if chosen.oracle else tool_printed(chosen.tool, example)
    return oracle_printed(example.given) if chosen.oracle else program_printed(chosen.program, example.given)


# Reads the command line.
def arguments():
    parser = argparse.ArgumentParser(description="Runs the examples of the documents.")
    parser.add_argument("program", nargs="?", help="the program, which reads a sheet on standard input")
    parser.add_argument("library", nargs="?", help="the library that the C examples are linked with")
    parser.add_argument("tool", nargs="?", help="the program behind ./saltreeve")
    parser.add_argument("--oracle", action="store_true", help="judge by the oracles, and run no C example")
    chosen = parser.parse_args()
    given = [each for each in (chosen.program, chosen.library, chosen.tool) if each is not None]
    if len(given) != (0 if chosen.oracle else 3):
        parser.error("give the program, the library and the tool, or --oracle alone")
    return chosen


# Runs all examples; 0 if each prints what its document says and, but for the oracle, examples of each kind are run.
def main():
    chosen, counts, wrong = arguments(), {"sheet": 0, "check": 0, "c": 0, "why": 0}, 0
    for example in all_examples():
        got = printed(chosen, example)
        if got is None:
            continue
        counts[example.kind] += 1
        if got != example.printed:
            wrong += 1
            print(f"docs: {example.place}: printed {got!r}, but {example.printed!r} is written there")
    print(f"docs: {counts['sheet'] + counts['check']} sheets, {counts['why']} questions and {counts['c']} C programs run, "
          f"{wrong} print something else")
    due = ("sheet",) if chosen.oracle else tuple(counts)
    return 1 if wrong or any(counts[kind] == 0 for kind in due) else 0


if __name__ == "__main__":
    sys.exit(main())
