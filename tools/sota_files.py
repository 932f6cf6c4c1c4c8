"""What all tools share: networks as sota reads them, tables of ids, words for chances and times,
and faults that say where.

Times are whole ticks. Nodes and arcs are numbered from 1.
"""
from __future__ import annotations

import argparse
import csv
import io
import os
import re
import sys
from dataclasses import dataclass, field
from fractions import Fraction
from pathlib import Path
from typing import Callable, Iterator, Sequence

NODE_LIMIT = 1_000_000
ARC_LIMIT = 4_000_000
BUDGET_LIMIT = 65_535
SCALE_LIMIT = 1_000_000_000
NUMBER_LIMIT = 4_294_967_295
FILE_LIMIT = 67_108_864
ONE = 10**18
"""A chance of one, in the units of the program."""


class BadData(Exception):
    """Data that a tool cannot use. Each message says where and what."""

    def __init__(self, *messages: str) -> None:
        super().__init__("\n".join(messages))
        self.messages = messages


class WrongUse(Exception):
    """Words of the command line that do not go together."""


def at(path: Path | str, line: int, words: str) -> str:
    """A message about one line of a file."""
    return f"{path}:{line}: {words}"


def run_tool(tool: Callable[[], None]) -> int:
    """Runs a tool and answers its exit status: 0, 1 for bad data, 2 for wrong use."""
    try:
        tool()
        sys.stdout.flush()
    except WrongUse as fault:
        print(f"wrong use: {fault} (see --help)", file=sys.stderr)
        return 2
    except BadData as fault:
        print(fault, file=sys.stderr)
        return 1
    except BrokenPipeError:
        os.dup2(os.open(os.devnull, os.O_WRONLY), sys.stdout.fileno())
        return 1
    except OSError as fault:
        print(f"{fault.filename or 'output'}: {fault.strerror}", file=sys.stderr)
        return 1
    return 0


def keep_inputs(outputs: Sequence[str | None], inputs: Sequence[str | None]) -> None:
    """Refuses to write over a file that is read. None stands for a file that is not named."""
    for output in filter(None, outputs):
        for source in filter(None, inputs):
            if os.path.exists(output) and os.path.exists(source):
                if os.path.samefile(output, source):
                    raise WrongUse(f"{output} would be written over {source}, which is read")


def is_number(word: str) -> bool:
    """Whether a word is a whole number of the program's range."""
    return bool(re.fullmatch("[0-9]{1,30}", word)) and int(word) <= NUMBER_LIMIT


def number_from(least: int, most: int) -> Callable[[str], int]:
    """A reader of a whole number within limits, for a command line."""

    def read(word: str) -> int:
        if not is_number(word) or not least <= int(word) <= most:
            raise argparse.ArgumentTypeError(f"'{word}' is no whole number from {least} to {most}")
        return int(word)

    return read


SECONDS = re.compile(r"[0-9]{1,15}(\.[0-9]{0,30})?|\.[0-9]{1,30}")


def seconds(word: str) -> Fraction:
    """A number of seconds as it stands in a text; ValueError where it is none."""
    if not SECONDS.fullmatch(word):
        raise ValueError(word)
    whole, _, digits = word.partition(".")
    return Fraction(int((whole or "0") + digits), 10 ** len(digits))


def tick_length(word: str) -> Fraction:
    """The length of a tick in seconds, for a command line."""
    try:
        length = seconds(word)
    except ValueError:
        length = Fraction(0)
    if length == 0:
        raise argparse.ArgumentTypeError(f"'{word}' is no length of a tick in seconds")
    return length


def read_text(path: Path | str) -> str:
    """The text of a UTF-8 file, without a byte order mark."""
    data = Path(path).read_bytes()
    try:
        return data.decode("utf-8-sig")
    except UnicodeDecodeError as fault:
        line = data.count(b"\n", 0, fault.start) + 1
        raise BadData(at(path, line, "not UTF-8 text")) from None


def read_records(path: Path | str) -> Iterator[tuple[int, list[str]]]:
    """The records of a CSV file, each with the line on which it begins; empty lines are skipped."""
    text = read_text(path)
    lines = io.StringIO(text, newline="")
    reader = csv.reader(lines, skipinitialspace=True, strict=True)
    line = 1
    try:
        for fields in reader:
            if fields:
                yield line, [each.strip() for each in fields]
            line = reader.line_num + 1
    except csv.Error as fault:
        raise BadData(at(path, line, f"not CSV: {fault}")) from None


def first_record(records: Iterator[tuple[int, list[str]]]) -> tuple[int, list[str]]:
    """The header of a CSV file and its line, empty where there is no record."""
    for record in records:
        return record
    return 1, []


# Tables of ids

IDS_HEADER = ["kind", "number", "id", "observations"]


@dataclass
class Ids:
    """The user's ids of nodes and arcs; without a table each is called by its number."""

    path: str = ""
    nodes: dict[int, str] = field(default_factory=dict)
    arcs: dict[int, str] = field(default_factory=dict)

    def node(self, number: int) -> str:
        return self.nodes.get(number, str(number))

    def arc(self, number: int) -> str:
        return self.arcs.get(number, str(number))

    def find_node(self, name: str) -> int:
        """The number of a place; without a table the place is that number."""
        if not self.path:
            if not is_number(name):
                raise WrongUse(f"'{name}' is no node number, and no table of ids was given")
            return int(name)
        for number, known in self.nodes.items():
            if known == name:
                return number
        raise WrongUse(f"no place is called '{name}' in {self.path}")


def read_ids(path: str | None) -> Ids:
    """Reads a table of ids; without a path, everything is called by its number."""
    if path is None:
        return Ids()
    ids = Ids(path)
    kinds = {"node": ids.nodes, "arc": ids.arcs}
    records = read_records(path)
    line, header = first_record(records)
    if header[:3] != IDS_HEADER[:3]:
        raise BadData(at(path, line, "the header of a table of ids begins with kind,number,id"))
    for line, fields in records:
        if len(fields) < 3 or fields[0] not in kinds or not is_number(fields[1]):
            raise BadData(at(path, line, "not 'node' or 'arc', a number and an id"))
        kinds[fields[0]][int(fields[1])] = fields[2]
    return ids


# Networks as the program reads them


@dataclass
class Arc:
    """An arc, with its pairs of tick and mass in rising ticks; without a pair it is closed."""

    tail: int
    head: int
    pairs: list[tuple[int, int]]


@dataclass
class Network:
    """Nodes numbered from 1, the denominator of the masses, and arc `e` at index `e - 1`."""

    nodes: int
    scale: int
    arcs: list[Arc]


def numbers(path: str, line: int, fields: Sequence[str]) -> list[int]:
    """Fields as whole numbers of the program's range."""
    if not all(is_number(each) for each in fields):
        raise BadData(at(path, line, f"not whole numbers: {' '.join(fields)}"))
    return [int(each) for each in fields]


def read_graph(path: str) -> tuple[int, list[tuple[int, int, int]]]:
    """The number of nodes, and tail, head and weight of each arc, of a DIMACS text."""
    nodes, arcs = 0, []
    for line, text in enumerate(read_text(path).split("\n"), start=1):
        fields = text.split()
        if not fields or fields[0].startswith("c"):
            continue
        if fields[:2] == ["p", "sp"] and len(fields) == 4 and not nodes:
            nodes, _ = numbers(path, line, fields[2:])
        elif fields[0] == "a" and len(fields) == 4 and nodes:
            tail, head, weight = numbers(path, line, fields[1:])
            if not (1 <= tail <= nodes and 1 <= head <= nodes):
                raise BadData(at(path, line, f"a node is not from 1 to {nodes}"))
            arcs.append((tail, head, weight))
        else:
            raise BadData(at(path, line, f"no line of a road graph: {text.strip()}"))
    if not nodes:
        raise BadData(f"{path}: no problem line 'p sp NODES ARCS'")
    return nodes, arcs


def read_network(graph: str, histograms: str) -> Network:
    """The network of a road graph and its histograms, `-` for none."""
    nodes, ends = read_graph(graph)
    if histograms == "-":
        return Network(nodes, 1, [Arc(tail, head, [(weight, 1)]) for tail, head, weight in ends])
    records = read_records(histograms)
    line, header = first_record(records)
    if len(header) != 3 or not re.fullmatch("mass/[0-9]{1,10}", header[2]):
        raise BadData(at(histograms, line, "the header is not arc,tick,mass/Q"))
    scale = int(header[2][len("mass/") :])
    pairs: dict[int, list[tuple[int, int]]] = {}
    for line, fields in records:
        if len(fields) != 3:
            raise BadData(at(histograms, line, "not three fields"))
        arc, tick, mass = numbers(histograms, line, fields)
        if not 1 <= arc <= len(ends):
            raise BadData(at(histograms, line, f"the arc is not from 1 to {len(ends)}"))
        if mass:
            pairs.setdefault(arc, []).append((tick, mass))
    arcs = [
        Arc(tail, head, sorted(pairs.get(arc, [(weight, scale)])))
        for arc, (tail, head, weight) in enumerate(ends, start=1)
    ]
    return Network(nodes, scale, arcs)


# Chances in words


def all_digits(value: int) -> str:
    """A chance with its 18 digits, as the program writes it."""
    return f"{value // ONE}.{value % ONE:018d}"


def percent(value: int) -> str:
    """A chance in per cent with one digit after the point, rounded down."""
    tenths = value * 1000 // ONE
    if tenths == 0 and value > 0:
        return "below 0.1 %"
    return f"{tenths // 10}.{tenths % 10} %"


@dataclass(frozen=True)
class Clock:
    """How long a tick is, for words about times; without a length, times are ticks."""

    tick: Fraction | None = None

    def amount(self, ticks: int) -> str:
        """A time as a number of seconds, or of ticks."""
        return f"{ticks}" if self.tick is None else f"{float(ticks * self.tick):.10g}"

    def unit(self) -> str:
        """What the number counts."""
        return "ticks" if self.tick is None else "s"

    def words(self, ticks: int) -> str:
        return f"{self.amount(ticks)} {self.unit()}"

    def span(self, low: int, high: int) -> str:
        """From one time to another, or the one time that both are."""
        return self.words(low) if low == high else f"{self.amount(low)} to {self.words(high)}"
