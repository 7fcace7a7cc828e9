"""Judges the same sheets with Saltreeve and with its peers, and prints the figures side by side.

bench/run builds what is needed and calls this; see there and docs/SPEED.md.
"""

import argparse
import os
import re
import shutil
import subprocess
import sys
import threading
import time
from concurrent.futures import ThreadPoolExecutor
from pathlib import Path

sys.dont_write_bytecode = True  # keeps the folders free of build products

ROOT = Path(__file__).resolve().parent.parent
sys.path.insert(0, str(ROOT / "bench" / "engines"))

import peers
import sheets

BUILD = ROOT / "target" / "bench"
WORKERS = 2
CALL_SECONDS = 0.2       # how long calls in one process are timed, for each sheet and checker, in one turn
CALL_TURNS = 3
PROGRAM_RUNS = 25
CALL_LIMIT = 30          # seconds for one call, also where instructions are counted
TOTAL_SECONDS = 500      # for the whole run; what is not begun by then is left out
ENGINE_SECONDS = 300     # for all engines together
AIM_INSTRUCTIONS = 4     # times the plain checker's, on every sheet
GOAL_INSTRUCTIONS = 2    # the same in the end
AIM_NOTHING = 20000      # instructions of a sheet with nothing in it
AIM_ENGINES = 30         # times faster than each engine
STAND_IN = "stand-in"


class Disagreement(Exception):
    """Two checkers print different texts, or one gives none."""


class Clock:
    """When the run must end."""

    deadline = time.monotonic() + TOTAL_SECONDS

    # A number of seconds, or those that are left if they are fewer.
    @classmethod
    def at_most(cls, seconds):
        return min(seconds, cls.deadline - time.monotonic())


class Checker:
    """A checker that is called in one process: Saltreeve's library, or the plain one."""

    # `host` is bench/host.c linked with it, `program` reads standard input, `name` goes into the table.
    def __init__(self, name, host, program):
        self.name, self.host, self.program, self.slow = name, host, program, set()

    # Runs the host; what it printed, or None if it did not come back in time.
    def call(self, *words, before=()):
        try:
            return subprocess.run([*before, str(self.host), *words], stdout=subprocess.PIPE, stderr=subprocess.PIPE,
                                  timeout=max(Clock.at_most(CALL_LIMIT), 0), check=True)
        except subprocess.TimeoutExpired:
            return None
        except subprocess.CalledProcessError as ended:
            raise Disagreement(f"{self.name} ends with status {ended.returncode} (host {' '.join(words)})") from ended

    # The text of a sheet.
    def text(self, path):
        done = self.call("once", str(path))
        return None if done is None else done.stdout.decode("latin-1")

    # The instructions of one call.
    def instructions(self, path):
        profile = BUILD / "profile" / f"{path.stem}.{self.name.replace(' ', '-')}"
        profile.parent.mkdir(exist_ok=True)
        done = self.call("once", str(path), before=["valgrind", "--tool=callgrind", "--toggle-collect=saltreeve_check",
                                                    f"--callgrind-out-file={profile}"])
        if done is None:
            return None
        return int(re.search(r"Collected : (\d+)", done.stderr.decode()).group(1))

    # The processor time of one call, in seconds; None if it takes too long, and then it is not tried again.
    def seconds(self, path):
        done = None if path in self.slow else self.call("time", str(path), str(CALL_SECONDS))
        if done is None:
            self.slow.add(path)
        return None if done is None else int(done.stdout) / 1e9

    # What the program prints for a sheet, and its processor time, the least of some runs.
    def run_program(self, path):
        best, text = None, None
        for _ in range(PROGRAM_RUNS):
            with open(path, "rb") as sheet:
                process = subprocess.Popen([str(self.program)], stdin=sheet, stdout=subprocess.PIPE)
                stop = threading.Timer(CALL_LIMIT, process.kill)
                stop.start()
                text = process.stdout.read().decode("latin-1")
                _, status, used = os.wait4(process.pid, 0)
                process.returncode = os.waitstatus_to_exitcode(status)
                stop.cancel()
                process.stdout.close()
            seconds = used.ru_utime + used.ru_stime
            best = seconds if best is None else min(best, seconds)
            if seconds > 1:
                break
        return best, text


# --- Tables ---


# A number of instructions.
def count_shown(count):
    return f"over {CALL_LIMIT} s" if count is None else f"{count:,}"


# A time.
def time_shown(seconds):
    if seconds is None:
        return f"over {CALL_LIMIT} s"
    if seconds < 1e-3:
        return f"{seconds * 1e6:.1f} µs"
    return f"{seconds * 1e3:.2f} ms" if seconds < 1 else f"{seconds:.1f} s"


# How many times one figure is another.
def ratio_shown(figure, other):
    if figure is None or other is None or other <= 0:
        return "-"
    ratio = figure / other
    return f"{ratio:.2f}" if ratio < 10 else f"{ratio:,.0f}"


# Prints a table as Markdown.
def print_table(title, head, rows):
    widths = [max(len(row[at]) for row in [head, *rows]) for at in range(len(head))]
    print(f"\n### {title}\n")
    for row in [head, ["-" * width for width in widths], *rows]:
        print("| " + " | ".join(cell.ljust(width) if at == 0 else cell.rjust(width)
                                for at, (cell, width) in enumerate(zip(row, widths))) + " |")


# --- Agreement ---


# Fails if a text is not the one due, and says where.
def same_text(sheet, who, text, other, due):
    if text == due:
        return
    lines, lines_due = text.splitlines(), due.splitlines()
    at = next((n for n, pair in enumerate(zip(lines, lines_due)) if pair[0] != pair[1]), min(len(lines), len(lines_due)))
    first, second = ((each[at] if at < len(each) else "nothing") for each in (lines, lines_due))
    raise Disagreement(f"{sheet}: line {at + 1} of the text: {who} prints '{first}', {other} prints '{second}'")


# The text of each sheet, on which all checkers agree; the slow stand-in alone may fail to give one in time.
def texts_of(checkers, paths):
    texts = {}
    for name, path in paths.items():
        for checker in checkers:
            text = checker.text(path)
            if text is None and checker.name != STAND_IN:
                raise Disagreement(f"{name}: {checker.name} gives no text within {CALL_LIMIT} s")
            if text is None:
                print(f"bench: the stand-in gives no text for {name} within {CALL_LIMIT} s", file=sys.stderr)
                continue
            texts.setdefault(name, (checker.name, text))
            same_text(name, checker.name, text, *texts[name])
    return texts


# --- What is measured ---


# What the sheets hold.
def print_sheets(drawn, texts):
    rows = []
    for name, sheet in drawn.items():
        words = [line.split("\t")[0] for line in sheet.decode().split("\n")]
        rows.append([name, f"{len(sheet):,}", *(str(words.count(word)) for word in ("item", "concept", "role")),
                     str(sum(words.count(word) for word in ("in", "rel", "same", "under", "runder"))),
                     str(words.count("rel")), str(words.count("rule")), texts[name][1].split()[-1] if name in texts else "-"])
    print_table("The sheets", ["Sheet", "Bytes", "Items", "Families", "Roles", "Statements", "of them `rel`", "Rules", "Findings"],
                rows)


# The instructions of one call of each checker, for sheets by name.
def instructions_of(checkers, paths):
    if shutil.which("valgrind") is None:
        print("bench: instructions are not counted: Debian's package valgrind is not installed", file=sys.stderr)
        return {}
    with ThreadPoolExecutor(WORKERS) as pool:
        jobs = {(name, checker.name): pool.submit(checker.instructions, path)
                for name, path in paths.items() for checker in checkers}
        return {key: job.result() for key, job in jobs.items()}


# Keeps a time if it is the least so far; none is kept where a call takes too long.
def keep_least(times, key, seconds):
    earlier = times.get(key, seconds)
    times[key] = None if earlier is None or seconds is None else min(earlier, seconds)


# One call in one process: instructions and processor time, and how many times the plain checker's they are.
def print_calls(checkers, paths, counts):
    times = {}
    for name, path in paths.items():
        for _ in range(CALL_TURNS):
            for checker in checkers:
                keep_least(times, (name, checker.name), checker.seconds(path))
    head = ["Sheet"] + [f"{checker.name}, {unit}" for unit in ("instructions", "time") for checker in checkers]
    if len(checkers) == 2:
        head.insert(3, "ratio")
        head.append("ratio")
    rows = []
    for name in paths:
        row = [name]
        for figures, shown in ((counts, count_shown), (times, time_shown)):
            both = [figures.get((name, checker.name)) for checker in checkers]
            row += [shown(figure) if (name, checker.name) in figures else "-" for figure, checker in zip(both, checkers)]
            if len(checkers) == 2:
                row.append(ratio_shown(*both))
        rows.append(row)
    print_table("One call in one process: the sheet's bytes in, the text out", head, rows)
    if len(checkers) == 2 and counts:
        print_worst([(counts[name, checkers[0].name], counts[name, checkers[1].name]) for name in paths])
    return times


# "within" or "NOT within".
def within(met):
    return "within" if met else "NOT within"


# How the instructions of both checkers stand to the aim, and to the goal.
def print_worst(pairs):
    said = f"\nThe aim is at most {AIM_INSTRUCTIONS} times the plain checker's instructions, the goal {GOAL_INSTRUCTIONS} times: "
    if any(None in pair for pair in pairs):
        print(f"{said}a count took over {CALL_LIMIT} s, NOT within the aim.")
        return
    worst = max(ours / plain for ours, plain in pairs)
    print(f"{said}the most is {worst:.2f}, {within(worst <= AIM_INSTRUCTIONS)} the aim, {within(worst <= GOAL_INSTRUCTIONS)} the goal.")


# The instructions of a call with an accepted sheet that has nothing in it.
def print_nothing(checker):
    if shutil.which("valgrind") is None:
        return
    path = BUILD / "nothing.sheet"
    path.write_bytes(b"sheet\t1\n")
    count = checker.instructions(path)
    print(f"A sheet with nothing in it takes {count_shown(count)} instructions; the aim is under {AIM_NOTHING:,}: "
          f"{within(count is not None and count < AIM_NOTHING)} the aim.")


# The programs, one process a sheet: the checkers' and the engines'.
def print_programs(checkers, paths, texts, runs):
    checkers = [checker for checker in checkers if checker.program is not None]
    if not checkers:
        return
    engines = list(dict.fromkeys(engine for _, engine in runs))
    rows, ours = [], {}
    for name, path in paths.items():
        figures = []
        for checker in checkers:
            seconds, text = checker.run_program(path)
            same_text(name, f"the program of {checker.name}", text, *texts.setdefault(name, (checker.name, text)))
            figures.append(seconds)
        ours[name] = figures[0]
        row = [name, *map(time_shown, figures), *([ratio_shown(*figures)] if len(figures) == 2 else [])]
        for engine in engines:
            run = runs[name, engine]
            row += [run.note or time_shown(run.seconds), ("over " if run.note else "") + ratio_shown(run.seconds, figures[0])]
        rows.append(row)
    head = [cell for engine in engines for cell in (engine, "ratio")]
    print_table("The programs: one process a sheet, its start included",
                ["Sheet", *(f"{checker.name}, program" for checker in checkers), *(["ratio"] if len(checkers) == 2 else []), *head],
                rows)
    known = [run.seconds / ours[name] for (name, _), run in runs.items() if run.seconds is not None]
    if known:
        print(f"\nProcess against process, {checkers[0].name} is ahead of each engine by {min(known):,.1f} times or more; "
              "most of a short run is the start of a process.")


# One engine on one sheet; nothing where the time for all engines is over.
def run_engine(peer, sheet, limit, deadline):
    left = Clock.at_most(min(limit, deadline - time.monotonic()))
    if left < 1:
        return peers.Run(None, None, None, "not run")
    return peers.judge(peer, sheet, left)


# The engines that are installed.
def engines_there():
    there = []
    for peer in peers.PEERS:
        if peer.there():
            there.append(peer)
        else:
            print(f"bench: {peer.name} is left out: Debian's package {peer.package} is not installed "
                  f"(apt-get install {peer.package})", file=sys.stderr)
    return there


# All engines on all sheets, one at a time, or two where an engine takes seconds.
def engine_runs(engines, drawn, limit):
    deadline, runs = time.monotonic() + ENGINE_SECONDS, {}
    for peer in engines:
        with ThreadPoolExecutor(WORKERS if peer.takes_seconds else 1) as pool:
            jobs = {name: pool.submit(run_engine, peer, sheet, limit, deadline) for name, sheet in drawn.items()}
            runs |= {(name, peer.name): job.result() for name, job in jobs.items()}
    return runs


# Fails if an engine does not agree with the checkers.
def engines_agree(runs, texts):
    for (name, engine), run in runs.items():
        if run.text is not None:
            same_text(name, engine, run.text, *texts.setdefault(name, (engine, run.text)))
        elif run.note.startswith("failed"):
            raise Disagreement(f"{name}: {engine} {run.note}")


# How many times our time for a sheet an engine takes, without its start; None where that is not known.
def ahead(run, ours):
    return None if run.seconds is None or ours is None else max(run.seconds - run.start, 0) / ours


# What the table says of an engine on a sheet: its time without its start, and how many times ours that is.
def engine_cells(run, ours):
    if run.seconds is None:
        return [run.note, "-"]
    net = max(run.seconds - run.start, 0)
    return [run.note or time_shown(net), ("over " if run.note and ours else "") + ratio_shown(net, ours)]


# The engines against the call of the first checker.
def print_engines(engines, runs, names, times, ours):
    rows = [[name, time_shown(times[name, ours])]
            + [cell for peer in engines for cell in engine_cells(runs[name, peer.name], times[name, ours])] for name in names]
    head = ["Sheet", f"{ours}, call"] + [cell for peer in engines for cell in (peer.name, "ratio")]
    print_table("Engines that people would otherwise use: processor time without their start", head, rows)
    starts = {peer.name: min((run.start for (_, engine), run in runs.items() if engine == peer.name and run.start), default=None)
              for peer in engines}
    print("\nTheir start, taken off above: " + ", ".join(f"{name} {time_shown(start)}" for name, start in starts.items()) + ".")
    known = [ratio for (name, _), run in runs.items() if (ratio := ahead(run, times[name, ours])) is not None]
    if known:
        print(f"The aim is to be ahead of each by {AIM_ENGINES} times or more: by this table the least is {min(known):,.1f} times, "
              f"{within(min(known) >= AIM_ENGINES)} the aim.")


# Which texts are missing, so that there is nothing to agree with.
def print_agreement(names, runs, texts, checkers):
    missing = [f"{engine} on {name}" for (name, engine), run in runs.items() if run.text is None]
    missing += [f"{checkers[0].name} on {name}" for name in names if texts.get(name, ("",))[0] != checkers[0].name]
    if missing:
        print(f"\nAll that gave their findings in time agree. Nothing is known of: {', '.join(missing)}.")
    else:
        print("\nAll agree on all findings.")


# How instructions grow with one thing, the rest staying as it is.
def print_growth(checkers, seed):
    for name, series in sheets.growth_sheets(seed).items():
        paths = {f"{count:,} {name}": BUILD / "sheets" / f"growth-{name}-{count}.sheet" for count in series}
        if Clock.at_most(TOTAL_SECONDS) < CALL_LIMIT:
            print("\nThere was no time left for more of how cost grows.")
            return
        texts_of(checkers, paths)
        counts = instructions_of(checkers, paths)
        if not counts:
            return
        rows = [[label, f"{path.stat().st_size:,}", *(count_shown(counts[label, checker.name]) for checker in checkers),
                 *([ratio_shown(*(counts[label, checker.name] for checker in checkers))] if len(checkers) == 2 else [])]
                for label, path in paths.items()]
        print_table(f"How cost grows with {name}: instructions of one call",
                    ["Sheet", "Bytes", *(checker.name for checker in checkers), *(["ratio"] if len(checkers) == 2 else [])], rows)


# --- The larger store ---


# Prints the sheets of edition 2, which only ours judges: their bytes, their last line and the time of one call with a lent
# store of the larger size.
def print_large(name, seed):
    ours = Checker(f"{name}, larger store", BUILD / "host-large", None)
    rows = []
    for sheet, data in sheets.large_sheets(seed).items():
        path = BUILD / "sheets" / f"{sheet}.sheet"
        text = ours.text(path)
        if text is not None and not text.splitlines()[-1].startswith("total"):
            raise Disagreement(f"{sheet}: {text!r}")
        items = sum(line.startswith(b"item\t") for line in data.splitlines())
        rows.append([sheet, f"{len(data):,}", str(items), "-" if text is None else text.splitlines()[-1].split("\t")[1],
                     time_shown(ours.seconds(path))])
    print_table("Sheets of edition 2, through saltreeve_check_in", ["Sheet", "Bytes", "Items", "Findings", ours.name], rows)


# --- The run ---


# The checkers that bench/run has built.
def checkers_of(chosen):
    ours = STAND_IN if chosen.stand_in else "Saltreeve"
    program = ROOT / "target" / "bin" / "checker"
    checkers = [Checker(ours, BUILD / "host-ours", program if program.exists() and not chosen.stand_in else None)]
    if (BUILD / "host-plain").exists():
        checkers.append(Checker("plain Rust", BUILD / "host-plain", BUILD / "plain"))
    return checkers


# Judges all sheets with all that is there; 0 if all agree.
def main():
    parser = argparse.ArgumentParser(description="Judges the same sheets with Saltreeve and its peers (bench/run builds them).")
    parser.add_argument("--seed", type=int, default=sheets.DEFAULT_SEED, help="the seed that the sheets are drawn from")
    parser.add_argument("--limit", type=float, default=60, help="seconds of processor time that an engine has for a sheet")
    parser.add_argument("--no-engines", action="store_true", help="leave the engines out")
    parser.add_argument("--no-growth", action="store_true", help="leave the growth series out")
    parser.add_argument("--stand-in", action="store_true", help="measure the tests' stand-in instead of Saltreeve")
    chosen = parser.parse_args()
    begin = time.monotonic()
    subprocess.run([sys.executable, str(ROOT / "bench" / "sheets.py"), str(BUILD / "sheets"), "--seed", str(chosen.seed)], check=True)
    drawn = sheets.all_sheets(chosen.seed)
    paths = {name: BUILD / "sheets" / f"{name}.sheet" for name in drawn}
    checkers = checkers_of(chosen)
    try:
        texts = texts_of(checkers, paths)
        print(f"Seed {chosen.seed}. Figures are of {checkers[0].name}.")
        print_sheets(drawn, texts)
        counts = instructions_of(checkers, paths)
        times = print_calls(checkers, paths, counts)
        print_nothing(checkers[0])
        print_large(checkers[0].name, chosen.seed)
        engines = [] if chosen.no_engines else engines_there()
        runs = engine_runs(engines, drawn, chosen.limit)
        engines_agree(runs, texts)
        if engines:
            print_engines(engines, runs, drawn, times, checkers[0].name)
        print_programs(checkers, paths, texts, runs)
        if not chosen.no_growth:
            print_growth(checkers, chosen.seed)
    except Disagreement as difference:
        print(f"bench: NOT in agreement: {difference}", file=sys.stderr)
        return 1
    print_agreement(paths, runs, texts, checkers)
    print(f"The run took {time.monotonic() - begin:.0f} s.")
    return 0


if __name__ == "__main__":
    sys.exit(main())
