"""Reads the policy files that sota writes, version 1 (SOTAPOL1) and version 2 (SOTAPOL2).

Numbers are big endian. A file of version 1 has a head of 32 bytes (the magic, nodes, destination,
origin, budget, Q, rows) and then rows with rising nodes: node, first budget, number of entries, and
entries of an arc (0 for none) and a chance in units of 10^-18. A file of version 2 has a head of
28 bytes (the same without rows) and for each node, in order, the first budget, the number of
entries, and entries of an arc, a lower and an upper bound.
"""
from __future__ import annotations

import struct
from dataclasses import dataclass
from pathlib import Path
from typing import Iterator

from sota_files import BUDGET_LIMIT, NODE_LIMIT, SCALE_LIMIT, BadData

MAGIC = {1: b"SOTAPOL1", 2: b"SOTAPOL2"}
HEAD = {1: struct.Struct(">8x6I"), 2: struct.Struct(">8x5I")}
ROW = {1: struct.Struct(">3I"), 2: struct.Struct(">2I")}
ENTRY = {1: struct.Struct(">IQ"), 2: struct.Struct(">IQQ")}
WORDS = {
    "Magic": "not a policy file",
    "Truncated": "the file ends too soon",
    "Order": "the nodes of the rows do not rise",
    "Range": "a number out of its range",
    "Trailing": "bytes that belong to nothing",
}


class PolicyFault(BadData):
    """The first fault of a file: the name and number that the program gives it, and its offset."""

    def __init__(self, path: str, cause: str, place: int, offset: int) -> None:
        super().__init__(f"{path}: at byte {offset}: {WORDS[cause]} ({cause} {place})")
        self.cause = cause
        self.place = place
        self.offset = offset


@dataclass(frozen=True)
class Entry:
    """What to do at a node with a budget: an arc, 0 for none, and the bounds of the chance."""

    arc: int
    lower: int
    upper: int | None = None


@dataclass(frozen=True)
class Row:
    """The entries of a node: for the budgets from `first` on, at an offset of the file."""

    first: int
    count: int
    offset: int


@dataclass(frozen=True)
class Policy:
    """A policy file that has no fault."""

    data: bytes
    version: int
    nodes: int
    dest: int
    origin: int
    budget: int
    scale: int
    rows: dict[int, Row]

    def entry(self, node: int, budget: int) -> Entry | None:
        """The entry at a node and a budget, where there is one."""
        row = self.rows.get(node)
        if row is None or not row.first <= budget < row.first + row.count:
            return None
        layout = ENTRY[self.version]
        place = row.offset + layout.size * (budget - row.first)
        return Entry(*layout.unpack_from(self.data, place))

    def entries(self, node: int) -> Iterator[tuple[int, Entry]]:
        """Budgets and entries of a node, by rising budget."""
        row = self.rows.get(node, Row(0, 0, 0))
        layout = ENTRY[self.version]
        part = self.data[row.offset : row.offset + layout.size * row.count]
        for budget, fields in enumerate(layout.iter_unpack(part), start=row.first):
            yield budget, Entry(*fields)


class FileReader:
    """Goes through a file from the front, and stops at its first fault."""

    def __init__(self, path: str) -> None:
        self.path = path
        self.data = Path(path).read_bytes()
        self.offset = 0

    def refuse(self, cause: str, place: int, offset: int) -> PolicyFault:
        return PolicyFault(self.path, cause, place, offset)

    def take(self, layout: struct.Struct) -> tuple[int, ...]:
        """The next numbers, which must all be there."""
        if len(self.data) < self.offset + layout.size:
            raise self.refuse("Truncated", self.offset, self.offset)
        fields = layout.unpack_from(self.data, self.offset)
        self.offset += layout.size
        return fields

    def take_entries(self, version: int, first: int, count: int) -> Row:
        """Passes over the entries of a row, which must all be there."""
        size = ENTRY[version].size
        row = Row(first, count, self.offset)
        whole = (len(self.data) - self.offset) // size
        if whole < count:
            place = self.offset + size * whole
            raise self.refuse("Truncated", place, place)
        self.offset += size * count
        return row

    def read(self) -> Policy:
        versions = [each for each, magic in MAGIC.items() if self.data.startswith(magic)]
        if not versions:
            raise self.refuse("Magic", 0, 0)
        version = versions[0]
        if len(self.data) < HEAD[version].size:
            raise self.refuse("Truncated", 0, 0)
        nodes, dest, origin, budget, scale, *rest = self.take(HEAD[version])
        head = Policy(self.data, version, nodes, dest, origin, budget, scale, {})
        if not is_head(head):
            raise self.refuse("Range", 0, 0)
        if version == 1:
            self.take_rows(head, rest[0])
        else:
            self.take_nodes(head)
        if self.offset < len(self.data):
            raise self.refuse("Trailing", self.offset, self.offset)
        return head

    def take_rows(self, head: Policy, rows: int) -> None:
        before = 0
        for number in range(1, rows + 1):
            start = self.offset
            node, first, count = self.take(ROW[1])
            if number > 1 and node <= before:
                raise self.refuse("Order", number, start)
            fits = 1 <= node <= head.nodes and node != head.dest and count > 0
            if not fits or first + count - 1 > head.budget:
                raise self.refuse("Range", number, start)
            head.rows[node] = self.take_entries(1, first, count)
            before = node

    def take_nodes(self, head: Policy) -> None:
        for node in range(1, head.nodes + 1):
            start = self.offset
            first, count = self.take(ROW[2])
            empty_dest = node != head.dest or (first, count) == (0, 0)
            within = count == 0 or first + count - 1 <= head.budget
            if not empty_dest or first > BUDGET_LIMIT + 1 or not within:
                raise self.refuse("Range", node, start)
            row = self.take_entries(2, first, count)
            if count:
                head.rows[node] = row


def is_head(head: Policy) -> bool:
    """Whether the numbers of a head are in their ranges."""
    return (
        1 <= head.nodes <= NODE_LIMIT
        and 1 <= head.dest <= head.nodes
        and 1 <= head.origin <= head.nodes
        and head.budget <= BUDGET_LIMIT
        and 1 <= head.scale <= SCALE_LIMIT
    )


def read_policy(path: str) -> Policy:
    """Reads a policy file of either version; PolicyFault says where it goes wrong."""
    return FileReader(path).read()
