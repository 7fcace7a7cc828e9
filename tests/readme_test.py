"""Runs the C example of README.md and compares what it prints with the sentence below it.

    python3 tests/readme_test.py LIBRARY
"""

import re
import sys

sys.dont_write_bytecode = True  # keeps the folder of the tests free of build products

import documents
import harness


# The first C block of the text, and the numbers that the sentence after it promises.
def example(text):
    code = next(block.text for block in documents.blocks(text) if block.kind == "c")
    said = re.search(r"It prints ([^.]*)\.", text[text.index(code) + len(code):])
    return code, re.findall(r"-?\d+", said.group(1))


# Compares the two; the exit status is 0 if they agree.
def main():
    code, said = example((harness.ROOT / "README.md").read_text())
    got = documents.printed_by_c("readme", code, sys.argv[1]).decode().split()
    if got != said:
        print(f"readme: the example prints {got}, README.md says {said}")
        return 1
    print(f"readme: the example prints {', '.join(got)}, as README.md says")
    return 0


if __name__ == "__main__":
    sys.exit(main())
