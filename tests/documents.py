"""The examples that stand in the documents: fenced blocks, and C programs to compile and run."""

import re
import subprocess
from collections import namedtuple

import harness

# A fenced block: the word after its fence, its text, and the line of the document where its fence opens.
Block = namedtuple("Block", "kind text line")


# The fenced blocks of a document, in order.
def blocks(text):
    found = re.finditer(r"^```(\w*)\n(.*?)^```$", text, re.S | re.M)
    return [Block(each.group(1), each.group(2), text.count("\n", 0, each.start()) + 1) for each in found]


# The commands of a block that shows them after `$ `: each with the text below it, up to the next one.
def commands(text):
    _, *shown = re.split(r"^\$ ", text, flags=re.M)
    return [(command, printed) for command, _, printed in (each.partition("\n") for each in shown)]


# Compiles a C program with the library; gives the bytes that it prints.
def printed_by_c(name, code, library):
    harness.BUILD.mkdir(parents=True, exist_ok=True)
    source, program = harness.BUILD / f"{name}.c", harness.BUILD / name
    source.write_text(code)
    subprocess.run([*harness.COMPILER, source, library, "-o", program], check=True)
    return subprocess.run([program], check=True, stdout=subprocess.PIPE).stdout
