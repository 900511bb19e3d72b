"""The structure listing that `hpc struct` puts, docs/FORMATS.md: which procedure an address lies in, and which calls
are inlined there.

Where debug information has no procedure at an address, it is that of the first function symbol in the listing which
holds the address. A symbol whose first address a procedure holds has no line there, so that what else it holds has no
name here.
"""
import heapq
import re
from bisect import bisect_right
from dataclasses import dataclass, field
from typing import List, NamedTuple, Tuple

from .contexts import readable

RANGE = rb"0x([0-9a-f]{8})\.\.0x([0-9a-f]{8})"
LINE = re.compile(rb"(proc|symbol|(?:  )+inline) (.*) (" + RANGE + rb"(?:," + RANGE + rb")*)", re.S)
CALLED_AT = b" called at "
UNKNOWN = "<unknown procedure>"


class NotAListing(Exception):
    """A line is none of a structure listing."""

    def __init__(self, line):
        super().__init__(f"line {line} is none of a structure listing")


class Inlined(NamedTuple):
    """A call that is inlined: how many others it lies in, what is called, and the ranges."""

    level: int
    name: str
    ranges: List[Tuple[int, int]]

    def holds(self, address):
        return any(start <= address < end for start, end in self.ranges)


@dataclass
class Listed:
    """A procedure, or a function symbol."""

    name: str
    ranges: List[Tuple[int, int]]
    inlined: List[Inlined] = field(default_factory=list)


class Listing:
    """`at` gives for an address the name of its procedure with what tells it from others of that name, and the names of
    the calls that are inlined there, the outermost first."""

    def __init__(self, data):
        self.procedures, self.symbols, self.known = [], [], {}
        lines = data.split(b"\n")
        if lines[-1]:
            raise NotAListing(len(lines))
        for number, line in enumerate(lines[:-1]):
            self._add(number + 1, line)
        self.by_procedure, self.by_symbol = _Holders(self.procedures), _Holders(self.symbols)
        # Of symbols that start at one address the first has the name.
        self.starts = {symbol.ranges[0][0]: symbol.name for symbol in reversed(self.symbols)}

    def _add(self, number, line):
        found = LINE.fullmatch(line)
        if not found:
            raise NotAListing(number)
        kind, name = found[1].lstrip(), found[2]
        ranges = [(int(low, 16), int(high, 16)) for low, high in re.findall(RANGE, found[3])]
        if kind == b"inline":
            if not self.procedures or self.symbols or CALLED_AT not in name:
                raise NotAListing(number)
            called = Inlined((len(found[1]) - len(kind)) // 2, readable(name.rpartition(CALLED_AT)[0]), ranges)
            self.procedures[-1].inlined.append(called)
        else:
            (self.procedures if kind == b"proc" else self.symbols).append(Listed(readable(name), ranges))

    def at(self, address):
        found = self.known.get(address)
        if found is None:
            found = self.known[address] = self._found_at(address)
        return found

    def _found_at(self, address):
        place = self.by_procedure.first_at(address)
        if place is None:
            symbol = self.by_symbol.first_at(address)
            start = None if symbol is None else self.symbols[symbol].ranges[0][0]
            return self.starts.get(start, UNKNOWN), ("symbol", start), ()
        procedure, names, level = self.procedures[place], [], 0
        for inlined in procedure.inlined:
            # What lies behind the last one that holds the address, and isn't within it, is no part of the chain.
            if names and inlined.level <= level:
                break
            if inlined.holds(address):
                names.append(inlined.name)
                level = inlined.level
        return procedure.name, ("procedure", place), tuple(names)


class _Holders:
    """Which of several is the first that holds an address: the addresses are cut where a range starts or ends."""

    def __init__(self, listed):
        events = [(at, place) for place, each in enumerate(listed) for both in each.ranges for at in both]
        ends = sorted((start, end, place) for place, each in enumerate(listed) for start, end in each.ranges)
        self.cuts, self.first, open_, next_ = sorted({at for at, _ in events}), [], [], 0
        for cut in self.cuts:
            while next_ < len(ends) and ends[next_][0] <= cut:
                heapq.heappush(open_, (ends[next_][2], ends[next_][1]))
                next_ += 1
            while open_ and open_[0][1] <= cut:
                heapq.heappop(open_)
            self.first.append(open_[0][0] if open_ else None)

    def first_at(self, address):
        place = bisect_right(self.cuts, address) - 1
        return self.first[place] if place >= 0 else None
