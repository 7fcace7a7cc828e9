"""Holds the translations for other engines against the oracle of the tests, on small sheets drawn at random.

    python3 bench/engines_test.py [--sheets N] [--seed N]

An engine that is not installed is left out.
"""

import argparse
import itertools
import sys
from pathlib import Path

sys.dont_write_bytecode = True  # keeps the folders free of build products

ROOT = Path(__file__).resolve().parent.parent
sys.path[:0] = [str(ROOT / "tests"), str(ROOT / "bench" / "engines")]

import oracle_sheets
import peers
import sheet_cases

SECONDS = 60


# Sheets that are accepted: drawn at random, and one for each rule word and operator in turn.
def cases(seed, sheets):
    yield from ((case.name, case.sheet) for case in sheet_cases.printed())
    yield from ((case.name, case.sheet) for case in sheet_cases.standing(seed, sheets))
    yield from ((case.name, case.sheet) for case in itertools.islice(sheet_cases.meanings(seed, 1), sheets))
    for path in sorted((ROOT / "examples").glob("*.sheet")):
        yield path.name, path.read_bytes()


# Asks an engine about every sheet; how many there were, or None after a difference.
def agrees(peer, seed, sheets):
    count = 0
    for name, sheet in cases(seed, sheets):
        due = oracle_sheets.judge(sheet)
        if due.number is not None:
            continue
        _, text, note = peers.judge_once(peer, sheet, SECONDS)
        if text != due.text:
            print(f"{peer.name}: seed {seed}: difference in {name}: {note}\n{sheet.decode()}\n"
                  f"expected:\n{due.text}\ngot:\n{text}")
            return None
        count += 1
    return count


# Tries every engine that is there; 0 if all agree.
def main():
    parser = argparse.ArgumentParser(description="Holds the translations for other engines against the oracle.")
    parser.add_argument("--sheets", type=int, default=60)
    parser.add_argument("--seed", type=int, default=17)
    chosen = parser.parse_args()
    wrong = 0
    for peer in peers.PEERS:
        if not peer.there():
            print(f"{peer.name}: left out: Debian's package {peer.package} is not installed")
            continue
        count = agrees(peer, chosen.seed, chosen.sheets)
        wrong += count is None
        if count is not None:
            print(f"{peer.name}: {count} sheets, seed {chosen.seed}: all agree", flush=True)
    return 1 if wrong else 0


if __name__ == "__main__":
    sys.exit(main())
