#!/usr/bin/env python3
"""A small planner in whole numbers, by the definition of the grid: what the tests compare with.

Run as a program it answers `run GRAPH HISTS SCRIPT` as sota does, for the lines ask, edit, close,
policy and bracket; lines are taken to be well formed. It plans the plain way and is slow; it is
here to be believed, not to be used.
"""
from __future__ import annotations

import heapq
import struct
import sys
from pathlib import Path
from typing import Iterator

sys.path.insert(0, str(Path(__file__).resolve().parent.parent))

from sota_files import (
    BUDGET_LIMIT,
    ONE,
    Arc,
    BadData,
    Network,
    all_digits,
    read_network,
)  # noqa: E402


class Grid:
    """Lower and upper values and choices for one destination, budget by budget."""

    def __init__(self, network: Network, dest: int) -> None:
        self.network = network
        self.dest = dest
        self.lower: list[list[int]] = []
        self.upper: list[list[int]] = []
        self.choice: list[list[int]] = []
        self.leaving: list[list[int]] = [[] for _ in range(network.nodes + 1)]
        for number, arc in enumerate(network.arcs, start=1):
            self.leaving[arc.tail].append(number)

    def total(self, values: list[list[int]], arc: Arc, budget: int) -> int:
        """The sum of mass times value over the pairs of an arc within the budget."""
        head = arc.head
        return sum(mass * values[budget - tick][head] for tick, mass in arc.pairs if tick <= budget)

    def grow(self, budget: int) -> None:
        """Makes the grid reach a budget."""
        for t in range(len(self.lower), budget + 1):
            row = [self.entry(node, t) for node in range(1, self.network.nodes + 1)]
            self.lower.append([0] + [lower for lower, _, _ in row])
            self.upper.append([0] + [upper for _, upper, _ in row])
            self.choice.append([0] + [choice for _, _, choice in row])

    def entry(self, node: int, t: int) -> tuple[int, int, int]:
        if node == self.dest:
            return ONE, ONE, 0
        best, choice, top = 0, 0, 0
        for number in self.leaving[node]:
            arc = self.network.arcs[number - 1]
            low = self.total(self.lower, arc, t)
            if low > best:
                best, choice = low, number
            top = max(top, self.total(self.upper, arc, t))
        scale = self.network.scale
        return best // scale, -(-top // scale), choice


def least_times(network: Network, start: int, dest: int, forward: bool) -> list[float]:
    """Least times from or to a node over open arcs that do not leave the destination."""
    steps: list[list[tuple[int, int]]] = [[] for _ in range(network.nodes + 1)]
    for arc in network.arcs:
        if arc.pairs and arc.tail != dest:
            here, there = (arc.tail, arc.head) if forward else (arc.head, arc.tail)
            steps[here].append((there, arc.pairs[0][0]))
    times = [float("inf")] * (network.nodes + 1)
    times[start] = 0
    queue = [(0, start)]
    while queue:
        time, node = heapq.heappop(queue)
        if time > times[node]:
            continue
        for there, least in steps[node]:
            if time + least < times[there]:
                times[there] = time + least
                heapq.heappush(queue, (time + least, there))
    return times


def region(network: Network, origin: int, dest: int, budget: int) -> Iterator[tuple[int, int, int]]:
    """Node, first budget and number of budgets, for the nodes that can matter to an ask."""
    to_dest = least_times(network, dest, dest, forward=False)
    from_origin = least_times(network, origin, dest, forward=True)
    for node in range(1, network.nodes + 1):
        if node != dest and to_dest[node] <= budget - from_origin[node]:
            first = int(to_dest[node])
            yield node, first, int(budget - from_origin[node]) - first + 1


def policy_bytes(network: Network, origin: int, dest: int, budget: int) -> bytes:
    """The policy file, version 1, of an ask."""
    grid = Grid(network, dest)
    grid.grow(budget)
    rows = list(region(network, origin, dest, budget))
    head = (network.nodes, dest, origin, budget, network.scale, len(rows))
    data = b"SOTAPOL1" + struct.pack(">6I", *head)
    for node, first, count in rows:
        data += struct.pack(">3I", node, first, count)
        for t in range(first, first + count):
            data += struct.pack(">IQ", grid.choice[t][node], grid.lower[t][node])
    return data


def bracket_bytes(network: Network, origin: int, dest: int, budget: int) -> bytes:
    """The policy file, version 2, of an ask."""
    grid = Grid(network, dest)
    grid.grow(budget)
    to_dest = least_times(network, dest, dest, forward=False)
    counts = {node: count for node, _, count in region(network, origin, dest, budget)}
    head = (network.nodes, dest, origin, budget, network.scale)
    data = b"SOTAPOL2" + struct.pack(">5I", *head)
    for node in range(1, network.nodes + 1):
        first = 0 if node == dest else int(min(to_dest[node], BUDGET_LIMIT + 1))
        data += struct.pack(">2I", first, counts.get(node, 0))
        for t in range(first, first + counts.get(node, 0)):
            entry = grid.choice[t][node], grid.lower[t][node], grid.upper[t][node]
            data += struct.pack(">IQQ", *entry)
    return data


WRITERS = {"policy": policy_bytes, "bracket": bracket_bytes}


class Session:
    """A network that is asked and edited, one line at a time."""

    def __init__(self, network: Network) -> None:
        self.network = network
        self.grids: dict[int, Grid] = {}

    def reply(self, line: int, fields: list[str]) -> str:
        if fields[0] == "ask":
            return self.ask(line, *map(int, fields[1:4]))
        if fields[0] in WRITERS:
            data = WRITERS[fields[0]](self.network, *map(int, fields[1:4]))
            Path(fields[4]).write_bytes(data)
            return f"stored {fields[4]}"
        arc = int(fields[1])
        halves = [each.split(":") for each in fields[2:]]
        pairs = [(int(tick), int(mass)) for tick, mass in halves]
        if sum(mass for _, mass in pairs) > self.network.scale:
            return f"refused {line} Sum"
        if not 1 <= arc <= len(self.network.arcs):
            return f"refused {line} NoArc"
        self.network.arcs[arc - 1].pairs = sorted(pair for pair in pairs if pair[1])
        self.grids.clear()
        return f"closed {arc}" if fields[0] == "close" else f"edited {arc}"

    def ask(self, line: int, origin: int, dest: int, budget: int) -> str:
        if not 1 <= origin <= self.network.nodes:
            return f"refused {line} NoOrigin"
        if not 1 <= dest <= self.network.nodes:
            return f"refused {line} NoDest"
        grid = self.grids.setdefault(dest, Grid(self.network, dest))
        grid.grow(budget)
        lower, upper = grid.lower[budget][origin], grid.upper[budget][origin]
        arc = grid.choice[budget][origin] or "-"
        return f"answer {origin} {dest} {budget} {all_digits(lower)} {all_digits(upper)} {arc}"


def main() -> int:
    _, graph, histograms, script = sys.argv[1:]
    try:
        session = Session(read_network(graph, histograms))
    except BadData:
        print("refused hists Sum 1")
        return 3
    refused = False
    for line, text in enumerate(Path(script).read_text().splitlines(), start=1):
        fields = text.split()
        if fields and not fields[0].startswith("#"):
            reply = session.reply(line, fields)
            refused = refused or reply.startswith("refused")
            print(reply)
    return 1 if refused else 0


if __name__ == "__main__":
    sys.exit(main())
