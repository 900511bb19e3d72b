"""What several formats need of a database: names as text, the values that are shown, and the tree's shape."""
from dataclasses import dataclass
from typing import List

from . import by_numpy
from .database import CALL, INLINE, PROC, ROOT

ROOT_NAMES = ("<thread root>", "<partial call paths>")

# Bytes below 32 and 127 are `?` in tables.
_PRINTED = bytes(63 if byte < 32 or byte == 127 else byte for byte in range(256))


def text(name):
    """A name as the tables print it. Bytes that are no UTF-8 are kept as surrogates: write them by `encoded`."""
    return name.translate(_PRINTED).decode("utf-8", "surrogateescape")


def encoded(line):
    return line.encode("utf-8", "surrogateescape")


def readable(name):
    """A name for formats that are Unicode: bytes that are no UTF-8 are replaced."""
    return name.translate(_PRINTED).decode("utf-8", "replace")


class Labels:
    """The nodes' labels, as the tables print them."""

    def __init__(self, database, name_of=text):
        self.nodes = database.nodes
        self.procedures = [name_of(procedure.name) for procedure in database.procedures]
        self.files = [name_of(file.name) for file in database.files]

    def place(self, node):
        """FILE:LINE, or an address."""
        line_file, line = self.nodes.line_file[node], self.nodes.line[node]
        return f"0x{line:08x}" if line_file < 0 else f"{self.files[line_file]}:{line}"

    def procedure(self, node):
        return self.procedures[self.nodes.operand[node]]

    def __getitem__(self, node):
        scope = self.nodes.scope[node]
        if scope == ROOT:
            return ROOT_NAMES[self.nodes.operand[node]]
        if scope == PROC:
            return self.procedure(node)
        if scope == INLINE:
            return f"[I] {self.procedure(node)} called at {self.place(node)}"
        return f"call at {self.place(node)}" if scope == CALL else self.place(node)


@dataclass
class Shown:
    """Which of a database's values are shown: those of one event, by its place in the list, and of some harts, summed,
    by their numbers among those of all runs.
    The writers ask here alone, and the page has the same choice (page/shown.js)."""

    harts: List[int]
    place: int = 0

    def event(self, database):
        return database.events[self.place]

    def plane(self, database, hart):
        return database.planes[hart * len(database.events) + self.place]

    def sampled(self, database):
        """The nodes with exclusive values and these values, hart by hart."""
        for hart in self.harts:
            plane = self.plane(database, hart)
            yield from zip(plane.node, plane.value)

    def exclusive(self, database):
        """Each node's exclusive value."""
        count, planes = len(database.nodes), [self.plane(database, hart) for hart in self.harts]
        if by_numpy.is_here(count):
            return by_numpy.exclusive(planes, count).tolist()
        values = [0] * count
        for plane in planes:
            for node, value in zip(plane.node, plane.value):
                values[node] += value
        return values

    def inclusive(self, database):
        """Each node's inclusive value."""
        count, planes = len(database.nodes), [self.plane(database, hart) for hart in self.harts]
        if by_numpy.is_here(count):
            return by_numpy.inclusive(by_numpy.exclusive(planes, count), database.nodes).tolist()
        values = [*self.exclusive(database), 0]
        for node, parent in zip(range(len(database.nodes) - 1, -1, -1), reversed(database.nodes.parent)):
            values[parent] += values[node]
        values.pop()
        return values

    def total(self, database):
        return sum(sum(self.plane(database, hart).value) for hart in self.harts)

    def kept(self, database, percent):
        """For each node whether it has this share of the total or more. Roots are kept, and all where it is 0."""
        least = percent * self.total(database) / 100
        if not least:
            return bytes([1]) * len(database.nodes)
        scopes = database.nodes.scope
        return bytes([value >= least or scope == ROOT for value, scope in zip(self.inclusive(database), scopes)])


def ends(nodes):
    """For each node the first one behind all that lie below it."""
    count = len(nodes)
    end = [0] * (count + 1)
    for node, parent in zip(range(count - 1, -1, -1), reversed(nodes.parent)):
        behind = end[node] = end[node] or node + 1
        if not end[parent]:
            end[parent] = behind
    return end
