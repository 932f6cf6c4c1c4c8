#!/usr/bin/env python3
"""Makes a road network of a SUMO simulation, for sota.

NET is a SUMO network (.net.xml). The travel times come from one of

    --routes FILE      what sumo writes with --vehroute-output FILE and
                       --vehroute-output.exit-times true: the times of each vehicle on each road.
                       The first and the last road of a vehicle are left out, since it drove only
                       a part of them.
    --edgedata FILE    what sumo writes for an <edgeData> element: one mean time a road and
                       interval, counted for each vehicle that left the road in the interval.
                       Means vary less than the times of vehicles do, so chances come out too
                       certain; take --routes where you can.

Three files are written, as roads_from_trips.py does: PREFIX.gr, PREFIX.csv and PREFIX.ids.csv.
The weight of a road is its length at its highest allowed speed. A road with few observations is
named and takes its weight for certain. The files may be gzipped (.gz).

Which turns a junction forbids is not taken over: the planner may turn from any road that ends at a
junction to any road that begins there.
"""
from __future__ import annotations

import argparse
import gzip
import math
import sys
import zlib
from dataclasses import dataclass
from fractions import Fraction
from pathlib import Path
from typing import Iterator, Sequence
from xml.parsers import expat

from observed_roads import Road, add_arguments, network_files, ticks, write_network
from sota_files import BadData, at, keep_inputs, run_tool, seconds

NO_EXIT_TIMES = "no route has exit times; run sumo with --vehroute-output.exit-times true"


@dataclass
class Tag:
    """The beginning of an XML element, and the line on which it stands."""

    path: str
    line: int
    name: str
    attributes: dict[str, str]

    def text(self, name: str) -> str:
        """An attribute that must be there."""
        if name not in self.attributes:
            raise BadData(at(self.path, self.line, f"<{self.name}> without '{name}'"))
        return self.attributes[name]

    def seconds(self, name: str) -> Fraction:
        """An attribute that must be a number without a sign."""
        return self.number(self.text(name), name)

    def number(self, word: str, name: str) -> Fraction:
        try:
            return seconds(word)
        except ValueError:
            words = f"'{name}' of <{self.name}> is '{word}', no plain number"
            raise BadData(at(self.path, self.line, words)) from None


def tags(path: str) -> Iterator[Tag]:
    """The beginnings of the elements of an XML file, in order."""
    found: list[Tag] = []
    parser = expat.ParserCreate()

    def begin(name: str, attributes: dict[str, str]) -> None:
        found.append(Tag(path, parser.CurrentLineNumber, name, attributes))

    parser.StartElementHandler = begin
    opened = gzip.open(path, "rb") if path.endswith(".gz") else open(path, "rb")
    try:
        with opened as file:
            while chunk := file.read(1 << 16):
                parser.Parse(chunk, False)
                yield from found
                found.clear()
        parser.Parse(b"", True)
    except expat.ExpatError as fault:
        words = f"not XML: {expat.ErrorString(fault.code)}"
        raise BadData(at(path, fault.lineno, words)) from None
    except (gzip.BadGzipFile, EOFError, zlib.error) as fault:
        raise BadData(f"{path}: not gzip: {fault}") from None


def may_drive(lane: Tag, kind: str) -> bool:
    """Whether a lane is open to a class of vehicles."""
    allowed = lane.attributes.get("allow", "").split()
    barred = lane.attributes.get("disallow", "").split()
    if allowed:
        return kind in allowed or "all" in allowed
    return kind not in barred and "all" not in barred


def read_roads(path: str, kind: str, tick: Fraction) -> dict[str, Road]:
    """The roads of a SUMO network by their ids; the usual time of one that is barred to a class
    of vehicles is 0."""
    roads: dict[str, Road] = {}
    road: Road | None = None
    for tag in tags(path):
        if tag.name == "edge":
            inner = tag.attributes.get("function", "normal") not in ("normal", "connector")
            road = None if inner else Road(tag.text("id"), tag.text("from"), tag.text("to"))
            if road:
                roads[road.name] = road
        elif tag.name == "lane" and road and may_drive(tag, kind):
            speed = tag.seconds("speed")
            if speed == 0:
                raise BadData(at(path, tag.line, "a lane of speed 0"))
            usual = ticks(tag.seconds("length") / speed, tick)
            road.usual = min(road.usual or usual, usual)
    return roads


def road_of(roads: dict[str, Road], name: str, tag: Tag, net: str) -> Road:
    """The road that a record speaks of."""
    if name not in roads:
        raise BadData(at(tag.path, tag.line, f"road '{name}' is not in {net}"))
    return roads[name]


def driven_routes(path: str) -> Iterator[Tag]:
    """The route that each vehicle drove: the last one written for it."""
    route: Tag | None = None
    for tag in tags(path):
        if tag.name == "vehicle":
            if route:
                yield route
            route = None
        elif tag.name == "route" and "exitTimes" in tag.attributes:
            route = tag
    if route:
        yield route


def take_routes(roads: dict[str, Road], path: str, net: str, tick: Fraction) -> None:
    """Counts the times of the vehicles on the roads that they drove whole."""
    none = True
    for route in driven_routes(path):
        none = False
        names, exits = route.text("edges").split(), route.text("exitTimes").split()
        if len(names) != len(exits):
            words = f"{len(names)} edges, but {len(exits)} exit times"
            raise BadData(at(path, route.line, words))
        for before, after, name in zip(exits[:-2], exits[1:-1], names[1:-1]):
            if before.startswith("-") or after.startswith("-"):
                continue  # the simulation ended before the vehicle left the road
            time = route.number(after, "exitTimes") - route.number(before, "exitTimes")
            if time < 0:
                raise BadData(at(path, route.line, f"road '{name}' is left before it is entered"))
            road_of(roads, name, route, net).times[ticks(time, tick)] += 1
    if none:
        raise BadData(f"{path}: {NO_EXIT_TIMES}")


def take_edge_data(roads: dict[str, Road], path: str, net: str, tick: Fraction) -> None:
    """Counts the mean time of each road and interval, once for each vehicle that left it."""
    none = True
    for tag in tags(path):
        if tag.name != "edge" or "traveltime" not in tag.attributes:
            continue
        none = False
        name = tag.text("id")
        if name.startswith(":"):
            continue  # the inside of a junction
        left = math.floor(tag.seconds("left"))
        if left:
            time = ticks(tag.seconds("traveltime"), tick)
            road_of(roads, name, tag, net).times[time] += left
    if none:
        raise BadData(f"{path}: no edge has a travel time")


def arguments() -> argparse.ArgumentParser:
    parser = argparse.ArgumentParser(
        description=__doc__, formatter_class=argparse.RawDescriptionHelpFormatter
    )
    parser.add_argument("net", metavar="NET", help="the SUMO network")
    add_arguments(parser, "a road with fewer than N observations is named and takes its weight")
    source = parser.add_mutually_exclusive_group(required=True)
    source.add_argument("--routes", metavar="FILE", help="routes of vehicles with exit times")
    source.add_argument("--edgedata", metavar="FILE", help="mean times by road and interval")
    parser.add_argument(
        "--class",
        dest="kind",
        default="passenger",
        metavar="CLASS",
        help="take the roads open to this class of vehicles (default passenger)",
    )
    return parser


def make(given: argparse.Namespace) -> None:
    """Makes the network of a SUMO network and its output."""
    keep_inputs(network_files(given.prefix), [given.net, given.routes, given.edgedata])
    all_roads = read_roads(given.net, given.kind, given.tick)
    if given.routes:
        take_routes(all_roads, given.routes, given.net, given.tick)
    else:
        take_edge_data(all_roads, given.edgedata, given.net, given.tick)
    roads = [road for road in all_roads.values() if road.usual]
    if not roads:
        raise BadData(f"{given.net}: no road is open to the class '{given.kind}'")
    for road in roads:
        road.certain = road.observations() < max(1, given.few)
    write_network(roads, given, f"the SUMO network {Path(given.net).name}")


def main(words: Sequence[str] | None = None) -> int:
    given = arguments().parse_args(words)
    return run_tool(lambda: make(given))


if __name__ == "__main__":
    sys.exit(main())
