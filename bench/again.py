#!/usr/bin/env python3
"""Measures what an ask costs the built program after others to the same destination, and prints a
table.

    bench/again.py [--sota PATH] [--cases WORD ..] [--rounds N]

It is a measurement: nothing fails by time. Standard library alone. The networks are those of
`bench/plans.py`. Each time is the processor time of a script with further lines less that of the
script without them, over the number of these lines; of several rounds the least counts. The first
column is the first ask, the others are asks that follow it: the same one from other origins, with
budgets each a tick longer, with a budget that is smaller, and after an edit of the last road that
the network has. The last row is a script of 1,000 asks to one destination, each after an edit.
"""
import argparse
import os
import sys
import tempfile

from plans import BUILT, files_of, run

# the name, the network, the ask, the other origins, and the smaller budget
CASES = [
    ("city", ("city",), (40, 27, 900), (36, 45, 50, 21, 58), 450),
    ("wide", ("made", 3, 1500, 4500, 300), (1, 1500, 2000), (2, 3, 4, 5, 6), 1900),
    ("narrow", ("made", 9, 4000, 12000, 8), (1, 4000, 3000), (2, 3, 4, 5, 6), 2900),
    ("roads-1M", ("avenues", 5, 1000, 8), (500500, 500520, 700),
     (500501, 501500, 501502, 500502, 501504), 650),
]
LINES = 20


def script_seconds(sota, folder, files, lines, rounds):
    """The processor seconds of a script of these lines."""
    script = os.path.join(folder, "script")
    with open(script, "w", encoding="ascii") as out:
        out.writelines(line + "\n" for line in lines)
    best = 1e9
    for _ in range(rounds):
        seconds, _, text, _ = run([sota, "run", *files, script])
        if any(not line.startswith(("answer", "closed", "edited")) for line in text.splitlines()):
            sys.exit(f"a line was refused: {text.splitlines()[:3]}")
        best = min(best, seconds)
    return best


def arc_count(graph):
    """How many arcs a graph announces."""
    with open(graph, encoding="ascii") as text:
        line = next(line for line in text if line.startswith("p"))
    return int(line.split()[3])


def denominator(hists):
    """What the masses of histograms are over."""
    with open(hists, encoding="ascii") as text:
        return int(text.readline().split("/")[1])


def row(given, name, network, ask, origins, smaller):
    """Prints the row of a case, in milliseconds."""
    origin, dest, budget = ask
    with tempfile.TemporaryDirectory() as folder:
        files = files_of(folder, network)
        last, whole = arc_count(files[0]), denominator(files[1])
        first = [f"ask {origin} {dest} {budget}"]
        others = [f"ask {origins[k % len(origins)]} {dest} {budget}" for k in range(LINES)]
        longer = [f"ask {origin} {dest} {budget + 1 + k}" for k in range(LINES)]
        edits = [f"edit {last} {5 + k % 9}:{whole}" for k in range(LINES // 2)]
        edited = [line for edit in edits for line in (edit, first[0])]
        nothing = script_seconds(given.sota, folder, files, [], given.rounds)
        once = script_seconds(given.sota, folder, files, first, given.rounds)
        cells = [name, f"{(once - nothing) * 1e3:.1f}"]
        for lines, count in [(others, LINES), (longer, LINES),
                             ([f"ask {origin} {dest} {smaller}"] * LINES, LINES),
                             (edited, LINES // 2)]:
            seconds = script_seconds(given.sota, folder, files, first + lines, given.rounds)
            cells.append(f"{max(0.0, seconds - once) / count * 1e3:.2f}")
    print("| " + " | ".join(cells) + " |", flush=True)


def long_script(given):
    """Prints the seconds of 1,000 asks to one destination of the city, each after an edit."""
    with tempfile.TemporaryDirectory() as folder:
        files = files_of(folder, ("city",))
        lines, part = [], denominator(files[1]) // 4
        for number in range(1000):
            arc, tick = 1 + number * 7 % arc_count(files[0]), 6 + number % 5
            lines.append(f"edit {arc} {tick}:{part} {tick + 8}:{part}")
            lines.append(f"ask {1 + number * 11 % 64} 27 {230 + number % 40}")
        seconds = script_seconds(given.sota, folder, files, lines, given.rounds)
    print(f"1,000 edits and asks to one destination of the city: {seconds:.2f} s")


def main():
    words = argparse.ArgumentParser(
        description=__doc__, formatter_class=argparse.RawDescriptionHelpFormatter)
    words.add_argument("--sota", default=BUILT)
    words.add_argument("--cases", nargs="*", default=[case[0] for case in CASES])
    words.add_argument("--rounds", type=int, default=3)
    given = words.parse_args()
    print("| ms | first ask | another origin | a tick longer | smaller | edit and ask |")
    print("|---|---:|---:|---:|---:|---:|")
    for case in CASES:
        if case[0] in given.cases:
            row(given, *case)
    long_script(given)


if __name__ == "__main__":
    main()
