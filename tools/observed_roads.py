"""Roads with the times observed on them, and the network that is made of them.

Shared by the tools that make networks. Times are whole ticks. Roads and places are numbered from 1
in the order of their ids.
"""
from __future__ import annotations

import argparse
import csv
import io
import re
import sys
from collections import Counter
from dataclasses import dataclass, field
from fractions import Fraction

from sota_files import (
    ARC_LIMIT,
    FILE_LIMIT,
    IDS_HEADER,
    NODE_LIMIT,
    NUMBER_LIMIT,
    SCALE_LIMIT,
    BadData,
    number_from,
    tick_length,
)


@dataclass
class Road:
    """A road and how often each time, in ticks, was observed on it.

    A road with a usual time may be certain: it then takes that time, whatever was observed.
    """

    name: str
    tail: str
    head: str
    times: Counter[int] = field(default_factory=Counter)
    usual: int = 0
    certain: bool = False

    def observations(self) -> int:
        """How many times were observed."""
        return sum(self.times.values())

    def weight(self) -> int:
        """The usual time where it is known, else the (lower) median of the observed times."""
        return self.usual or median(self.times)

    def masses(self, scale: int) -> list[tuple[int, int]]:
        """Pairs of tick and mass; none where the weight stands for all."""
        return [] if self.certain else masses(self.times, scale)


def ticks(time: Fraction, tick: Fraction) -> int:
    """A time in the nearest whole number of ticks, the even one of two; one at least."""
    return max(1, round(time / tick))


def median(times: Counter[int]) -> int:
    """The least time that at least half of the observations do not exceed."""
    passed, total = 0, sum(times.values())
    for tick in sorted(times):
        passed += times[tick]
        if 2 * passed >= total:
            return tick
    raise ValueError("no times")


def masses(times: Counter[int], scale: int) -> list[tuple[int, int]]:
    """Counts as masses that sum to the scale, by largest remainders; on ties the least tick."""
    total = sum(times.values())
    shares = {tick: divmod(times[tick] * scale, total) for tick in sorted(times)}
    left = scale - sum(whole for whole, _ in shares.values())
    raised = set(sorted(shares, key=lambda tick: (-shares[tick][1], tick))[:left])
    return [(tick, whole + (tick in raised)) for tick, (whole, _) in shares.items()]


def id_order(name: str) -> tuple[list[int | str], str]:
    """A key that puts ids in the order a person expects: J2 before J10."""
    parts = re.split("([0-9]{1,18})", name)
    return [int(part) if place % 2 else part for place, part in enumerate(parts)], name


@dataclass
class RoadNetwork:
    """Roads and places in the order of their numbers."""

    roads: list[Road]
    places: list[str]

    def graph(self, about: str) -> str:
        """The road graph, with a comment on what it is."""
        number = {place: node for node, place in enumerate(self.places, start=1)}
        lines = [f"c {about}", f"p sp {len(self.places)} {len(self.roads)}"]
        for road in self.roads:
            lines.append(f"a {number[road.tail]} {number[road.head]} {road.weight()}")
        return "\n".join(lines) + "\n"

    def histograms(self, scale: int) -> str:
        """The histograms; a time whose mass would be 0 is left out."""
        lines = [f"arc,tick,mass/{scale}"]
        for arc, road in enumerate(self.roads, start=1):
            lines += [f"{arc},{tick},{mass}" for tick, mass in road.masses(scale) if mass]
        return "\n".join(lines) + "\n"

    def ids(self) -> str:
        """The table of ids: one record a place and a road."""
        text = io.StringIO()
        table = csv.writer(text, lineterminator="\n")
        table.writerow(IDS_HEADER)
        table.writerows(["node", node, place, ""] for node, place in enumerate(self.places, 1))
        for arc, road in enumerate(self.roads, start=1):
            table.writerow(["arc", arc, road.name, road.observations()])
        return text.getvalue()

    def remarks(self, scale: int, few: int) -> list[str]:
        """Names the roads with few observations, and those with times that have no mass."""
        found = []
        for road in self.roads:
            name = f"road {road.name} from {road.tail} to {road.head}"
            seen = f"few observations: {name} has {road.observations()}"
            if road.certain:
                found.append(f"{seen} and takes {road.weight()} ticks for certain")
            elif road.observations() < few:
                found.append(seen)
            lost = sum(mass == 0 for _, mass in road.masses(scale))
            if lost:
                found.append(f"{name}: {lost} of its times have no mass at Q {scale}")
        return found


def network_of(roads: list[Road]) -> RoadNetwork:
    """The network of roads in any order, if the program can read it."""
    ends = {end for road in roads for end in (road.tail, road.head)}
    if not roads:
        raise BadData("no road has been found")
    if len(ends) > NODE_LIMIT or len(roads) > ARC_LIMIT:
        raise BadData(
            f"{len(ends)} places and {len(roads)} roads are more than the program reads "
            f"({NODE_LIMIT} and {ARC_LIMIT})"
        )
    by_name = sorted(roads, key=lambda road: id_order(road.name))
    return RoadNetwork(by_name, sorted(ends, key=id_order))


def add_arguments(parser: argparse.ArgumentParser, few: str) -> None:
    """The words of the command line that the tools share; `few` says what --few does."""
    parser.add_argument("prefix", metavar="PREFIX", help="how the names of the three files begin")
    parser.add_argument(
        "--tick",
        type=tick_length,
        default=Fraction(1),
        metavar="SECONDS",
        help="the length of a tick in seconds, such as 5 or 0.5 (default 1)",
    )
    parser.add_argument(
        "--scale",
        type=number_from(1, SCALE_LIMIT),
        default=1_000_000,
        metavar="Q",
        help="what the masses of a road sum to (default 1000000)",
    )
    parser.add_argument(
        "--few",
        type=number_from(0, NUMBER_LIMIT),
        default=5,
        metavar="N",
        help=f"{few} (default 5)",
    )


def network_files(prefix: str) -> list[str]:
    """The names of the graph, the histograms and the table of ids."""
    return [f"{prefix}.gr", f"{prefix}.csv", f"{prefix}.ids.csv"]


def write_network(roads: list[Road], given: argparse.Namespace, source: str) -> None:
    """Writes the three files of a network, and says what was written and what to mind."""
    network = network_of(roads)
    tick = f"{float(given.tick):g}"
    graph = network.graph(f"made of {source}; 1 tick = {tick} s")
    histograms = network.histograms(given.scale)
    names = network_files(given.prefix)
    for name, text in zip(names, (graph, histograms)):
        if len(text.encode()) > FILE_LIMIT:
            raise BadData(f"{name} would have more than {FILE_LIMIT} bytes, the program's limit")
    for name, text in zip(names, (graph, histograms, network.ids())):
        with open(name, "w", encoding="utf-8", newline="\n") as out:
            out.write(text)
    for remark in network.remarks(given.scale, given.few):
        print(remark, file=sys.stderr)
    counts = f"{len(network.places)} places and {len(network.roads)} roads"
    print(f"{names[0]}: {counts}; a tick is {tick} s")
    print(f"{names[1]}: the times of each road, masses over {given.scale}")
    print(f"{names[2]}: which number stands for which id")
