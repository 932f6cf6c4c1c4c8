#!/usr/bin/env python3
"""Makes a road network of observed trips, for sota.

TRIPS is a CSV file with the columns road, from, to and seconds, one line for each time that a road
was driven. Ids of roads and places are any text. Three files are written:

    PREFIX.gr        the road graph; the weight of a road is the median of its observed times
    PREFIX.csv       the histograms: how often each time was observed, as masses that sum to Q
    PREFIX.ids.csv   which node and arc number stands for which id, and how often a road was seen

Times are rounded to the nearest whole number of ticks (the even one of two), to one tick at least.
Nothing is smoothed and nothing is learned: a road that nobody drove is not in the network, and a
time that nobody took has no mass.
"""
from __future__ import annotations

import argparse
import sys
from fractions import Fraction
from functools import lru_cache
from pathlib import Path
from typing import Sequence

from observed_roads import Road, add_arguments, network_files, ticks, write_network
from sota_files import (
    NUMBER_LIMIT,
    BadData,
    at,
    first_record,
    keep_inputs,
    read_records,
    run_tool,
    seconds,
)

COLUMNS = ("road", "from", "to", "seconds")
SHOWN = 20


class Reader:
    """Counts the trips of a file one by one."""

    def __init__(self, tick: Fraction) -> None:
        self.roads: dict[str, Road] = {}
        self.first_line: dict[str, int] = {}
        self.ticks = lru_cache(maxsize=1 << 16)(lambda word: ticks(seconds(word), tick))

    def take(self, line: int, trip: Sequence[str]) -> str:
        """Counts one trip; answers why it cannot be counted, or nothing."""
        if "" in trip:
            return f"the column '{COLUMNS[trip.index('')]}' is empty"
        name, tail, head, time = trip
        try:
            taken = self.ticks(time)
        except ValueError:
            return f"'{time}' is no number of seconds (such as 48 or 48.5)"
        if taken > NUMBER_LIMIT:
            return f"{time} seconds are more than {NUMBER_LIMIT} ticks"
        if name not in self.roads:
            self.roads[name] = Road(name, tail, head)
            self.first_line[name] = line
        road = self.roads[name]
        if (road.tail, road.head) != (tail, head):
            return (
                f"road {name} goes from {tail} to {head} here, "
                f"but from {road.tail} to {road.head} on line {self.first_line[name]}"
            )
        road.times[taken] += 1
        return ""


def read_trips(path: str, tick: Fraction) -> list[Road]:
    """The roads of a file of trips; BadData names every line that cannot be used."""
    records = read_records(path)
    line, header = first_record(records)
    missing = [column for column in COLUMNS if header.count(column) != 1]
    if missing:
        names = ", ".join(missing)
        words = f"the header does not name once: {names} (columns are parted by commas)"
        raise BadData(at(path, line, words))
    places = [header.index(column) for column in COLUMNS]
    reader = Reader(tick)
    faults = []
    for line, fields in records:
        if len(fields) == len(header):
            fault = reader.take(line, [fields[place] for place in places])
        else:
            fault = f"{len(fields)} fields, but the header has {len(header)}"
        if fault:
            faults.append(at(path, line, fault))
    if faults:
        more = len(faults) - SHOWN
        rest = [f"{path}: and {more} more such lines"] if more > 0 else []
        raise BadData(*faults[:SHOWN], *rest, "nothing was written")
    return list(reader.roads.values())


def arguments() -> argparse.ArgumentParser:
    parser = argparse.ArgumentParser(
        description=__doc__, formatter_class=argparse.RawDescriptionHelpFormatter
    )
    parser.add_argument("trips", metavar="TRIPS", help="the CSV file of observed trips")
    add_arguments(parser, "name the roads with fewer than N observations")
    return parser


def make(given: argparse.Namespace) -> None:
    """Makes the network of a file of trips."""
    keep_inputs(network_files(given.prefix), [given.trips])
    roads = read_trips(given.trips, given.tick)
    write_network(roads, given, f"the observed trips in {Path(given.trips).name}")


def main(words: Sequence[str] | None = None) -> int:
    given = arguments().parse_args(words)
    return run_tool(lambda: make(given))


if __name__ == "__main__":
    sys.exit(main())
