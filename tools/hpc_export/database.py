"""A database in memory, and what its readers share.

Nothing of the proved program is called. What is numbers is kept in arrays, and as much as can be is done by the
interpreter's loops over whole arrays (columns.py).
"""
from array import array
from dataclasses import dataclass, field
from typing import List

from .columns import numbers

# The events of a run that are sampled, by their numbers, and what their values count.
EVENTS = ("retired", "loads", "stores", "taken")
UNITS = ("retired instructions", "loads", "stores", "taken branches")
# Scopes of a node.
ROOT, PROC, INLINE, CALL, STMT = range(5)
# Kinds of a value.
EXCLUSIVE, FRAME, INCLUSIVE = range(3)
# The identity of a procedure.
DIE, SYMBOL, NAMELESS = range(3)
# Places in the program.
ROW, ADDRESS = range(2)


class Malformed(Exception):
    """The file breaks a rule at an offset."""

    def __init__(self, rule, offset):
        super().__init__(f"database rule {rule} at {offset}")
        self.rule, self.offset = rule, offset


@dataclass
class Event:
    """Its number, its period, and the offsets of both in the file."""

    number: int
    period: int
    offset: int
    period_offset: int

    @property
    def name(self):
        return EVENTS[self.number]

    @property
    def unit(self):
        return UNITS[self.number]


@dataclass
class Procedure:
    """Its identity, DIE, SYMBOL or NAMELESS with a number, and the offset of its entry in the file."""

    kind: int
    number: int
    name: bytes
    offset: int


@dataclass
class File:
    """A line table's offset, the number of the file in it, and the offset of its entry in the file."""

    table: int
    number: int
    name: bytes
    offset: int


@dataclass
class Nodes:
    """The nodes in preorder, a column for each field. The parent of a root is -1; a number of 2^31 or more, which no node
    has, is negative too. `operand` is the root's kind, the place of the procedure, or a call's or statement's kind of
    line; `line_file` is the place of the line's file, or -1 where the line is an address or there is none; `line` is
    the line's number or address, or -1 where there is none. The nodes begin in the file at `offset`. `end` has what
    by_numpy.py found of them."""

    parent: array
    scope: bytes
    operand: array
    line_file: array
    line: array
    offset: int
    end: object = field(default=None, compare=False, repr=False)

    def __len__(self):
        return len(self.scope)

    def offset_of(self, node):
        """Where a node's fields begin in the file."""
        lengths = {ROOT: 12, PROC: 12, INLINE: 24, CALL: 20, STMT: 20}
        of_addresses = sum(scope >= INLINE and file < 0 for scope, file in zip(self.scope[:node], self.line_file))
        return self.offset + sum(map(lengths.__getitem__, self.scope[:node])) - 4 * of_addresses


@dataclass
class Plane:
    """A column's samples, that is a hart's of one event: the nodes that have some, ascending, their values, and how
    many samples these are; and the plane's entries as bytes, with the offset of its number of entries."""

    offset: int
    data: bytes
    node: array
    value: array
    samples: array

    @property
    def entries(self):
        return self.offset + 4

    def columns(self):
        """The columns of the entries: nodes, kinds and values."""
        words = numbers("I", self.data)
        return words[0::4], words[1::4], numbers("Q", self.data)[1::2]


@dataclass
class Context:
    """The bytes from the context plane on, and the offset where they begin."""

    offset: int
    data: bytes


@dataclass
class Database:
    """`planes` has one for each column: hart by hart, run by run, and of each hart event by event. Values are samples
    times the period of the column's event. Version 1 has one event, retired instructions. `runs` has the number of harts
    of each run; versions 1 and 2 have one. `runs_offset` is that of the first word on them in the file."""

    version: int
    events: List[Event]
    runs: List[int]
    runs_offset: int
    procedures: List[Procedure]
    files: List[File]
    nodes: Nodes
    planes: List[Plane]
    context: Context

    @property
    def harts(self):
        """How many harts all runs have. A hart's number is then that among these."""
        return sum(self.runs)

    @property
    def places(self):
        """For each hart its run, and its number there."""
        return [(run, hart) for run, harts in enumerate(self.runs) for hart in range(harts)]

    def hart_name(self, hart):
        run, number = self.places[hart]
        return f"run {run} hart {number}" if len(self.runs) > 1 else f"hart {number}"

    @property
    def columns(self):
        return self.harts * len(self.events)

    def period(self, column):
        return self.events[column % len(self.events)].period
