#!/usr/bin/env python3
"""Reads a policy file of sota in words or as CSV.

For each place: the stretches of remaining time with one road, and the chance to arrive in time at
both ends of each stretch. With --node for one place, with --trip along the likeliest trip: of all
trips that follow the plan and arrive in time, the one whose travel times are together the most
probable. Chances in words are rounded down; CSV has all digits.

A file that is no policy file is named with the byte at which it goes wrong.
"""
from __future__ import annotations

import argparse
import csv
import math
import sys
from dataclasses import dataclass
from itertools import groupby
from typing import Sequence

from policy_file import Entry, Policy, read_policy
from sota_files import (
    ONE,
    BadData,
    Clock,
    Ids,
    Network,
    WrongUse,
    all_digits,
    percent,
    read_ids,
    read_network,
    run_tool,
    tick_length,
)


@dataclass(frozen=True)
class Stretch:
    """Remaining times, from low to high, at which a plan takes one arc, 0 for none."""

    node: int
    low: int
    high: int
    arc: int
    at_low: Entry
    at_high: Entry


@dataclass(frozen=True)
class Step:
    """A road taken on a trip: where, with how much time left, and how long it takes."""

    node: int
    left: int
    arc: int
    takes: int


@dataclass(frozen=True)
class Reading:
    """A plan, and what is known about its places, roads and ticks."""

    policy: Policy
    ids: Ids
    clock: Clock
    network: Network | None

    def road(self, arc: int) -> str:
        """A road by its id, with the place that it leads to where that is known."""
        if self.network is None:
            return f"road {self.ids.arc(arc)}"
        return f"road {self.ids.arc(arc)} to {self.ids.node(self.network.arcs[arc - 1].head)}"

    def chance(self, node: int, left: int) -> int:
        """The chance from a node with so much time left, as the file has it."""
        entry = self.policy.entry(node, left)
        return ONE if node == self.policy.dest else entry.lower if entry else 0


def stretches(policy: Policy, node: int) -> list[Stretch]:
    """The stretches of a node, the most remaining time first."""
    found = []
    for arc, group in groupby(policy.entries(node), key=lambda pair: pair[1].arc):
        pairs = list(group)
        (low, at_low), (high, at_high) = pairs[0], pairs[-1]
        found.append(Stretch(node, low, high, arc, at_low, at_high))
    return found[::-1]


def check_network(policy: Policy, network: Network, path: str) -> None:
    """Refuses a network that is not the plan's."""
    if (policy.nodes, policy.scale) != (network.nodes, network.scale):
        raise BadData(
            f"{path}: a plan for {policy.nodes} nodes and Q {policy.scale}, but the network has "
            f"{network.nodes} nodes and Q {network.scale}"
        )
    for node in policy.rows:
        for left, entry in policy.entries(node):
            if entry.arc > len(network.arcs) or (
                entry.arc and network.arcs[entry.arc - 1].tail != node
            ):
                raise BadData(
                    f"{path}: arc {entry.arc}, taken at node {node} with {left} ticks left, "
                    "does not leave that node in this network"
                )


def likeliest_trip(policy: Policy, network: Network) -> list[Step] | None:
    """The likeliest trip that follows the plan and arrives in time; None where none arrives.

    Of the ways to stand at a node with so many ticks left the likeliest is kept, from the whole
    budget down.
    """
    begin = (policy.origin, policy.budget)
    best: dict[tuple[int, int], float] = {begin: 0.0}
    came: dict[tuple[int, int], Step] = {}
    waiting: list[set[int]] = [set() for _ in range(policy.budget + 1)]
    waiting[policy.budget].add(policy.origin)
    for left in range(policy.budget, -1, -1):
        for node in sorted(waiting[left]):
            entry = policy.entry(node, left)
            if node == policy.dest or entry is None or entry.arc == 0:
                continue
            arc = network.arcs[entry.arc - 1]
            for tick, mass in arc.pairs:
                place = (arc.head, left - tick)
                chance = best[node, left] + math.log(mass / network.scale)
                if tick <= left and chance > best.get(place, -math.inf):
                    best[place] = chance
                    came[place] = Step(node, left, entry.arc, tick)
                    waiting[left - tick].add(arc.head)
    ends = [place for place in best if place[0] == policy.dest]
    if not ends:
        return None
    return steps_to(max(ends, key=lambda place: (best[place], place[1])), came)


def steps_to(place: tuple[int, int], came: dict[tuple[int, int], Step]) -> list[Step]:
    """The steps that led to a place, in order."""
    steps = []
    while place in came:
        step = came[place]
        steps.append(step)
        place = (step.node, step.left)
    return steps[::-1]


def headline(reading: Reading) -> str:
    """What the plan is for, and how likely it is to arrive."""
    policy, ids = reading.policy, reading.ids
    chance = reading.chance(policy.origin, policy.budget)
    return (
        f"From {ids.node(policy.origin)} to {ids.node(policy.dest)} "
        f"within {reading.clock.words(policy.budget)}: chance {percent(chance)}"
    )


def node_words(reading: Reading, node: int) -> list[str]:
    """The stretches of a node in words."""
    name = reading.ids.node(node)
    if node == reading.policy.dest:
        return [f"At {name}: arrived"]
    found = stretches(reading.policy, node)
    if not found:
        return [f"At {name}: the plan never comes here in time"]
    lines = [f"At {name}:"] + [f"  {stretch_words(reading, each)}" for each in found]
    if found[-1].low > 0:
        least = reading.clock.words(found[-1].low)
        lines.append(f"  with less than {least} left the plan takes no road")
    return lines


def stretch_words(reading: Reading, stretch: Stretch) -> str:
    low, high = percent(stretch.at_low.lower), percent(stretch.at_high.lower)
    chance = f"chance {low} to {high}" if low != high else f"chance {low}"
    left = f"with {reading.clock.span(stretch.low, stretch.high)} left"
    if stretch.arc == 0:
        return f"{left} the plan takes no road"
    return f"{left} take {reading.road(stretch.arc)} ({chance})"


def trip_words(reading: Reading, steps: list[Step]) -> list[str]:
    """A trip in words, with the stretch of remaining time in which each road is the right one."""
    lines = []
    clock, ids = reading.clock, reading.ids
    for number, step in enumerate(steps, start=1):
        chance = percent(reading.chance(step.node, step.left))
        lines.append(
            f"{number}. at {ids.node(step.node)} with {clock.words(step.left)} left: "
            f"{reading.road(step.arc)}, {clock.words(step.takes)} (chance {chance})"
        )
        found = stretches(reading.policy, step.node)
        place = next(k for k, each in enumerate(found) if each.low <= step.left <= each.high)
        lines += [f"   {stretch_words(reading, each)}" for each in found[max(0, place - 1) :][:3]]
    left = steps[-1].left - steps[-1].takes if steps else reading.policy.budget
    lines.append(f"arrived at {ids.node(reading.policy.dest)} with {clock.words(left)} left")
    return lines


def write_stretches(reading: Reading, nodes: Sequence[int]) -> None:
    """The stretches of some nodes as CSV; version 2 has upper bounds too."""
    out = csv.writer(sys.stdout, lineterminator="\n")
    bounds = ["lower"] if reading.policy.version == 1 else ["lower", "upper"]
    columns = [f"{bound}_at_{end}" for end in ("least", "most") for bound in bounds]
    out.writerow(["place", "least_ticks", "most_ticks", "road"] + columns)
    for node in nodes:
        for each in stretches(reading.policy, node):
            road = reading.ids.arc(each.arc) if each.arc else "-"
            values = [
                all_digits(getattr(entry, bound))
                for entry in (each.at_low, each.at_high)
                for bound in bounds
            ]
            out.writerow([reading.ids.node(node), each.low, each.high, road] + values)


def write_trip(reading: Reading, network: Network, steps: list[Step]) -> None:
    """A trip as CSV."""
    out = csv.writer(sys.stdout, lineterminator="\n")
    out.writerow(["place", "ticks_left", "road", "to", "ticks_taken", "lower"])
    for step in steps:
        head = reading.ids.node(network.arcs[step.arc - 1].head)
        chance = all_digits(reading.chance(step.node, step.left))
        place, road = reading.ids.node(step.node), reading.ids.arc(step.arc)
        out.writerow([place, step.left, road, head, step.takes, chance])


def show_trip(reading: Reading, as_csv: bool) -> None:
    """Prints the likeliest trip."""
    if reading.network is None:
        raise WrongUse("--trip needs --network")
    steps = likeliest_trip(reading.policy, reading.network)
    if steps is None:
        print("no trip of this plan arrives in time")
    elif as_csv:
        write_trip(reading, reading.network, steps)
    else:
        print("\n".join([headline(reading)] + trip_words(reading, steps)))


def show_nodes(reading: Reading, nodes: Sequence[int], as_csv: bool) -> None:
    """Prints the stretches of some nodes."""
    if as_csv:
        write_stretches(reading, nodes)
        return
    print(headline(reading))
    for node in nodes:
        print("\n".join(node_words(reading, node)))


def show(given: argparse.Namespace) -> None:
    ids = read_ids(given.ids)
    policy = read_policy(given.policy)
    network = read_network(*given.network) if given.network else None
    if network:
        check_network(policy, network, given.policy)
    reading = Reading(policy, ids, Clock(given.tick), network)
    if given.trip:
        show_trip(reading, given.csv)
    elif given.node is not None:
        node = ids.find_node(given.node)
        if not 1 <= node <= policy.nodes:
            raise WrongUse(f"node {node} is not from 1 to {policy.nodes}")
        show_nodes(reading, [node], given.csv)
    else:
        show_nodes(reading, sorted(policy.rows), given.csv)


def arguments() -> argparse.ArgumentParser:
    parser = argparse.ArgumentParser(
        description=__doc__, formatter_class=argparse.RawDescriptionHelpFormatter
    )
    parser.add_argument("policy", metavar="POLICY", help="the policy file")
    which = parser.add_mutually_exclusive_group()
    which.add_argument("--node", metavar="PLACE", help="only this place")
    which.add_argument("--trip", action="store_true", help="the likeliest trip; needs --network")
    parser.add_argument(
        "--network",
        nargs=2,
        metavar=("GRAPH", "HISTS"),
        help="the network of the plan: tells where each road leads",
    )
    parser.add_argument("--ids", metavar="TABLE", help="the table of ids (.ids.csv)")
    parser.add_argument(
        "--tick",
        type=tick_length,
        metavar="SECONDS",
        help="the length of a tick: times are then shown in seconds",
    )
    parser.add_argument("--csv", action="store_true", help="print CSV, with all digits")
    return parser


def main(words: Sequence[str] | None = None) -> int:
    given = arguments().parse_args(words)
    return run_tool(lambda: show(given))


if __name__ == "__main__":
    sys.exit(main())
