#!/usr/bin/env python3
"""Measures asks of the built program on networks from narrow to wide, beside other programs that
answer the same asks, and prints a table.

    bench/plans.py [--sota PATH] [--other NAME=PATH:KIND ..] [--cases WORD ..] [--rounds N]

It is a measurement: nothing fails by time, but an answer that differs from that of another program
ends it with status 1. Standard library alone. Each case is a network that is made here from a fixed
seed, or the example city, and an ask. The reading time is the processor time of the same ask with
budget 0, which plans next to nothing; the planning time, with the search for the region, is what
the ask takes beyond that. Of several rounds the least counts. Another program is run as
`PATH KIND GRAPH HISTS O D T`; it prints the same line of answer, and on standard error
`region_s SECONDS` and `plan_s SECONDS`: what these two take beyond budget 0 is its planning.

    made SEED NODES ARCS SPAN    a ring and random arcs, each over SPAN ticks (the command `make`)
    roads SEED SIDE WIDTH        a square grid, one road in twenty random over WIDTH ticks
    avenues SEED SIDE WIDTH      the same, with one-way roads north and south, which is less text
    star NODES                   from node 2 to node 1 straight, or by way of each other node
    city                         the example city, a tick a second
"""
import argparse
import multiprocessing
import os
import random
import subprocess
import sys
import tempfile

HERE = os.path.dirname(os.path.abspath(__file__))
ROOT = os.path.dirname(HERE)
BUILT = os.path.join(ROOT, "crates", "sota", "out", "sota")

# the name, the network, and the ask
CASES = [
    ("narrow", ("made", 9, 4000, 12000, 8), (1, 4000, 3000)),
    ("middling", ("made", 7, 400, 1200, 120), (1, 400, 1800)),
    ("wide", ("made", 3, 1500, 4500, 300), (1, 1500, 2000)),
    ("widest", ("made", 5, 200, 600, 1000), (1, 200, 5000)),
    ("roads-1k", ("roads", 1, 32, 24), (1, 1024, 1800)),
    ("roads-10k", ("roads", 2, 100, 24), (506, 9091, 4500)),
    ("roads-100k", ("roads", 3, 316, 24), (50001, 75360, 3800)),
    ("roads-900k", ("roads", 4, 930, 8), (432915, 460840, 1300)),
    ("roads-1M", ("avenues", 5, 1000, 8), (500500, 530530, 1600)),
    ("star", ("star", 916), (2, 1, 65535)),
    ("city", ("city",), (40, 27, 230)),
    ("city-wide", ("city",), (1, 64, 3600)),
]

MULTIPLIER = 0x2360ED051FC65DA44385DF649FCCF645
MASK = 2**128 - 1


class Words:
    """The words of a seed: the generator PCG XSL RR 128/64 on its stream 0."""

    def __init__(self, seed):
        self.state = 0
        self.state = (self.step() + seed) & MASK
        self.state = self.step()

    def step(self):
        return (self.state * MULTIPLIER + 1) & MASK

    def draw(self, k):
        """A number below k."""
        self.state = self.step()
        turn = self.state >> 122
        word = (self.state >> 64 ^ self.state) & (2**64 - 1)
        word = (word >> turn | word << (64 - turn) % 64) & (2**64 - 1)
        return word * k >> 64


def made(seed, nodes, arcs, span):
    """The network that the command `make` makes: arcs as (tail, head, weight, pairs), and Q."""
    scale, words, out = 1_000_000, Words(seed), []
    for number in range(1, arcs + 1):
        if number <= nodes:
            tail, head = number, number % nodes + 1
        else:
            tail = 1 + words.draw(nodes)
            head = 1 + words.draw(nodes)
        tick, rest, pairs = 1 + words.draw(10), scale - span, []
        for left in range(span, 1, -1):
            extra = words.draw(2 * rest // left + 1)
            pairs.append((tick, 1 + extra))
            tick, rest = tick + 1, rest - extra
        out.append((tail, head, 1, pairs + [(tick, 1 + rest)]))
    return nodes, scale, out


def both_ways(side, node):
    """The arcs between a node of a square grid and those east and south of it."""
    row, column = divmod(node - 1, side)
    east = [node + 1] if column + 1 < side else []
    south = [node + side] if row + 1 < side else []
    ways = [(node, other) for other in east + south]
    return [end for way in ways for end in (way, way[::-1])]


def one_way(side, node):
    """The same, where who goes along a column goes south in every other one, and else north."""
    arcs = both_ways(side, node)
    return [arc for arc in arcs if abs(arc[0] - arc[1]) == 1 or (arc[0] < arc[1]) == (node % 2 == 0)]


def roads(seed, side, width, arcs_of=both_ways):
    """A square grid with two arcs a road, one arc in twenty random over `width` ticks."""
    scale, draw, out = 1_000_000, random.Random(seed), []
    for node in range(1, side * side + 1):
        for tail, head in arcs_of(side, node):
            weight, pairs = draw.randint(5, 60), []
            if draw.random() < 0.05:
                shares = [draw.random() for _ in range(width)]
                masses = [max(1, int(scale * share / sum(shares))) for share in shares]
                masses[0] += scale - sum(masses)
                pairs = [(weight + k, mass) for k, mass in enumerate(masses)]
            out.append((tail, head, weight, pairs))
    return side * side, scale, out


def star(nodes):
    """Certain roads of one tick: the largest ask that is accepted has 916 nodes."""
    out = [(2, 1, 1, [])]
    for node in range(3, nodes + 1):
        out += [(2, node, 1, []), (node, 1, 1, [])]
    return nodes, 1, out


def avenues(seed, side, width):
    """A grid of a million nodes with two arcs a road would be longer than a text may be."""
    return roads(seed, side, width, one_way)


MAKERS = {"made": made, "roads": roads, "avenues": avenues, "star": star}


def write(graph, hists, network):
    """Writes the two files of a network."""
    nodes, scale, arcs = MAKERS[network[0]](*network[1:])
    with open(graph, "w") as out:
        out.write(f"p sp {nodes} {len(arcs)}\n")
        out.writelines(f"a {tail} {head} {weight}\n" for tail, head, weight, _ in arcs)
    with open(hists, "w") as out:
        out.write(f"arc,tick,mass/{scale}\n")
        for number, (_, _, _, pairs) in enumerate(arcs, start=1):
            out.writelines(f"{number},{tick},{mass}\n" for tick, mass in pairs)


def files_of(folder, network):
    """The two files of a network, made where they are not there. Another process makes them, since
    a child's peak of memory counts what its parent held when it began."""
    if network[0] == "city":
        return [os.path.join(ROOT, "examples", "city_grid" + end) for end in (".gr", ".csv")]
    files = [os.path.join(folder, "plans" + end) for end in (".gr", ".csv")]
    maker = multiprocessing.Process(target=write, args=(*files, network))
    maker.start()
    maker.join()
    return files


def run(words):
    """Runs a program: its processor seconds, its peak memory in MiB, its two outputs."""
    with tempfile.TemporaryFile() as errors:
        with subprocess.Popen(words, stdout=subprocess.PIPE, stderr=errors) as child:
            text = child.stdout.read().decode()
            _, status, usage = os.wait4(child.pid, 0)
            child.returncode = os.waitstatus_to_exitcode(status)
        errors.seek(0)
        notes = errors.read().decode()
    return usage.ru_utime + usage.ru_stime, usage.ru_maxrss / 1024, text.strip(), notes


def plan_seconds(notes):
    """What another program says that its region and its plan took."""
    lines = [line.split() for line in notes.splitlines()]
    return sum(float(line[1]) for line in lines if line[:1] in (["region_s"], ["plan_s"]))


def measure(given, files, ask):
    """The seconds of reading and of planning, the peak and the answer; then those of the others."""
    reading, total, peak, answer = 1e9, 1e9, 0.0, ""
    nothing = [ask[0], ask[1], "0"]
    for _ in range(given.rounds):
        reading = min(reading, run([given.sota, "ask", *files, *nothing])[0])
        seconds, peak, answer, _ = run([given.sota, "ask", *files, *ask])
        total = min(total, seconds)
    others = []
    for _, path, kind in given.others:
        least, plan, most, line = 1e9, 1e9, 0.0, ""
        for _ in range(given.rounds):
            least = min(least, plan_seconds(run([path, kind, *files, *nothing])[3]))
            _, most, line, notes = run([path, kind, *files, *ask])
            plan = min(plan, plan_seconds(notes))
        others.append((max(0.0, plan - least), most, line))
    return reading, max(0.0, total - reading), peak, answer, others


def row(given, name, network, ask):
    """Prints the row of a case, and answers whether all programs gave the same answer."""
    with tempfile.TemporaryDirectory() as folder:
        files = files_of(folder, network)
        reading, planning, peak, answer, others = measure(given, files, [str(word) for word in ask])
    cells = [name, f"{reading:.2f}", f"{planning:.2f}", f"{peak:.0f}"]
    for plan, most, _ in others:
        cells += [f"{plan:.2f}", f"{most:.0f}", f"{planning / plan:.2f}" if plan else "-"]
    print("| " + " | ".join(cells) + " |", flush=True)
    same = all(line == answer for _, _, line in others)
    if not same:
        print(f"{name}: {answer} against {[line for _, _, line in others]}", file=sys.stderr)
    return same


def other(text):
    name, rest = text.split("=", 1)
    path, kind = rest.rsplit(":", 1)
    return name, path, kind


def main():
    words = argparse.ArgumentParser(
        description=__doc__, formatter_class=argparse.RawDescriptionHelpFormatter)
    words.add_argument("--sota", default=BUILT)
    words.add_argument("--other", dest="others", action="append", type=other, default=[],
                       metavar="NAME=PATH:KIND")
    words.add_argument("--cases", nargs="*", default=[name for name, _, _ in CASES])
    words.add_argument("--rounds", type=int, default=3)
    given = words.parse_args()
    heads = ["case", "reading s", "planning s", "peak MiB"]
    for name, _, _ in given.others:
        heads += [f"{name} s", f"{name} MiB", "ratio"]
    print("| " + " | ".join(heads) + " |")
    print("|---" + "|---:" * (len(heads) - 1) + "|")
    rows = [row(given, *case) for case in CASES if case[0] in given.cases]
    return 0 if all(rows) else 1


if __name__ == "__main__":
    sys.exit(main())
