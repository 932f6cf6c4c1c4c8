#!/usr/bin/env python3
"""Makes road networks of stated sizes from fixed seeds, runs the built program on them and prints a table of times.

It is a measurement and no test: nothing fails by time. Standard library alone.

    bench/roads.py                          the table, over the built program crates/sota/out/sota
    bench/roads.py --sota PATH              another program
    bench/roads.py --make SIDE FOLDER       only writes FOLDER/roads.gr (and roads.csv with --width W)

A network is a square grid of SIDE * SIDE junctions with two arcs a road, one each way, and weights from 5 to 60 ticks.
The reading time is that of an ask with a budget of 0, which plans next to nothing; the planning time of another budget is what
it takes beyond that.
"""
import argparse
import os
import random
import resource
import subprocess
import sys
import tempfile
import time

HERE = os.path.dirname(os.path.abspath(__file__))
BUILT = os.path.join(HERE, "..", "crates", "sota", "out", "sota")


def road_arcs(side, seed):
    """The arcs of the grid, as (tail, head, weight), nodes numbered from 1 row by row."""
    draw = random.Random(seed)
    arcs = []
    for row in range(side):
        for column in range(side):
            node = row * side + column + 1
            for other in ([node + 1] if column + 1 < side else []) + ([node + side] if row + 1 < side else []):
                weight = draw.randint(5, 60)
                arcs.append((node, other, weight))
                arcs.append((other, node, weight))
    return arcs


def write_graph(path, side, seed=7):
    """Writes the graph text, and answers how many nodes and arcs it has."""
    arcs = road_arcs(side, seed)
    with open(path, "w") as out:
        out.write("c a square grid of junctions, two arcs a road\n")
        out.write(f"p sp {side * side} {len(arcs)}\n")
        out.writelines(f"a {tail} {head} {weight}\n" for tail, head, weight in arcs)
    return side * side, len(arcs)


def write_histograms(path, side, width, seed=7, scale=1_000_000):
    """Writes histograms of `width` ticks for every arc, from its weight on, masses over `scale`."""
    draw = random.Random(seed + 1)
    with open(path, "w") as out:
        out.write(f"arc,tick,mass/{scale}\n")
        for number, (_, _, weight) in enumerate(road_arcs(side, seed), start=1):
            shares = [draw.random() for _ in range(width)]
            masses = [max(1, int(scale * share / sum(shares))) for share in shares]
            masses[0] += scale - sum(masses)
            out.writelines(f"{number},{weight + k},{mass}\n" for k, mass in enumerate(masses))


def run(program, words):
    """Runs the program, and answers its seconds, its peak memory in MiB and its output."""
    begin = time.monotonic()
    with subprocess.Popen([program] + words, stdout=subprocess.PIPE) as child:
        text = child.stdout.read().decode()
        _, status, usage = os.wait4(child.pid, 0)
        child.returncode = os.waitstatus_to_exitcode(status)
    return time.monotonic() - begin, usage.ru_maxrss / 1024, text.strip() or f"status {child.returncode}"


def main():
    words = argparse.ArgumentParser(description=__doc__, formatter_class=argparse.RawDescriptionHelpFormatter)
    words.add_argument("--sota", default=BUILT)
    words.add_argument("--make", nargs=2, metavar=("SIDE", "FOLDER"))
    words.add_argument("--width", type=int, default=0, help="histograms of this many ticks; 0: certain times")
    words.add_argument("--sides", type=int, nargs="*", default=[100, 320, 500, 900])
    words.add_argument("--budgets", type=int, nargs="*", default=[30], help="besides 0")
    given = words.parse_args()
    if given.make:
        side, folder = int(given.make[0]), given.make[1]
        os.makedirs(folder, exist_ok=True)
        print(*write_graph(os.path.join(folder, "roads.gr"), side))
        if given.width:
            write_histograms(os.path.join(folder, "roads.csv"), side, given.width)
        return 0
    print(f"{'nodes':>9} {'arcs':>9} {'MiB read':>9} {'reading s':>10} {'budget':>7} {'planning s':>11} {'peak MiB':>9}  reply")
    with tempfile.TemporaryDirectory() as folder:
        graph, hists = os.path.join(folder, "roads.gr"), os.path.join(folder, "roads.csv")
        for side in given.sides:
            nodes, arcs = write_graph(graph, side)
            size = os.path.getsize(graph)
            if given.width:
                write_histograms(hists, side, given.width)
                size += os.path.getsize(hists)
            reading = 0.0
            for budget in [0] + given.budgets:
                ask = ["ask", graph, hists if given.width else "-", "1", str(side + 2), str(budget)]
                seconds, peak, reply = run(given.sota, ask)
                reading = reading if budget else seconds
                print(f"{nodes:>9} {arcs:>9} {size / 2**20:>9.1f} {reading:>10.2f} {budget:>7} {seconds - reading:>11.2f} {peak:>9.0f}  {reply}")
    return 0


if __name__ == "__main__":
    resource.setrlimit(resource.RLIMIT_CORE, (0, 0))
    sys.exit(main())
