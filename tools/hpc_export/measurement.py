"""A measurement, docs/FORMATS.md: what a run's samples were before they came to scopes, and why a path is partial. Nothing
of the proved program is called.

`read` gives a Measurement, or raises Malformed with the offset that the program says. `causes` tells how many samples
have a partial call path, by their causes.
"""
import struct
from array import array
from collections import Counter
from dataclasses import dataclass
from typing import List, NamedTuple, Tuple

from .database import EVENTS

VERSIONS = {b"HPCRUNM1": 1, b"HPCRUNM2": 2}
MOST_HARTS, MOST_FRAMES_OF_PATH = 64, 512
MOST_SAMPLES, MOST_FRAMES = 1 << 20, 1 << 22

RETIRED = 0
# How a path ends.
WHOLE, NO_FDE, NO_CFA, EXPRESSION, UNMAPPED, DEPTH = range(6)
CAUSES = {
    NO_FDE: "no call frame information for the address",
    NO_CFA: "no rule for the frame's address",
    EXPRESSION: "a rule that is an expression",
    UNMAPPED: "a saved register where nothing can be loaded",
    DEPTH: "512 frames and another caller",
}


class Malformed(Exception):
    """The file breaks a rule at an offset."""

    def __init__(self, offset):
        super().__init__(f"measurement at {offset}")
        self.offset = offset


class Path(NamedTuple):
    """A distinct call path of a column: its samples, how it ends, and its pcs, the innermost first."""

    samples: int
    end: int
    pcs: Tuple[int, ...]


@dataclass
class Measurement:
    """The length and the entry address of the program's file, the events, each a number and a period, and the paths of each
    column: hart by hart, and of each hart event by event. Version 1 has one event, retired instructions."""

    length: int
    entry: int
    events: List[Tuple[int, int]]
    columns: List[List[Path]]


class _Words:
    """The words behind the magic number, one after another; one that isn't whole, or out of its range, is at fault."""

    def __init__(self, data):
        self.all = struct.unpack_from(f"<{(len(data) - 8) // 4}I", data, 8)
        self.next = 0

    def offset(self):
        return 8 + 4 * self.next

    def word(self, least=0, most=0xFFFFFFFF):
        if self.next == len(self.all) or not least <= self.all[self.next] <= most:
            raise Malformed(self.offset())
        self.next += 1
        return self.all[self.next - 1]

    def many(self, count):
        if self.next + count > len(self.all):
            raise Malformed(8 + 4 * len(self.all))
        self.next += count
        return self.all[self.next - count : self.next]


def read(data):
    """The measurement that these bytes are, or Malformed."""
    version = VERSIONS.get(data[:8])
    if version is None:
        raise Malformed(0)
    words = _Words(data)
    length, entry = words.word(), words.word()
    events = [(RETIRED, words.word(1))] if version == 1 else _events(words)
    columns, samples, frames = [], 0, 0
    for _ in range(words.word(1, MOST_HARTS) * len(events)):
        paths, known = [], set()
        for _ in range(words.word()):
            path = _path(words, MOST_SAMPLES - samples, MOST_FRAMES - frames, known)
            samples, frames = samples + path.samples, frames + len(path.pcs)
            paths.append(path)
        columns.append(paths)
    if words.offset() != len(data):
        raise Malformed(words.offset())
    return Measurement(length, entry, events, columns)


def _events(words):
    """The events of version 2, which ascend and are not retired alone, with their periods."""
    at, events, least = words.offset(), [], 0
    count = words.word(1, len(EVENTS))
    for _ in range(count):
        number = words.word(least, len(EVENTS) - 1)
        if count == 1 and number == RETIRED:
            raise Malformed(at)
        events.append((number, words.word(1)))
        least = number + 1
    return events


def _path(words, samples, frames, known):
    """The next path of a column, of so many samples and frames at most, which is none of those that are known."""
    count, end = words.word(1, samples), words.word(WHOLE, DEPTH)
    depth = words.word(1, min(MOST_FRAMES_OF_PATH, frames))
    start = words.offset()
    pcs = words.many(depth)
    key = end, array("I", pcs).tobytes()
    if key in known:
        raise Malformed(start)
    known.add(key)
    return Path(count, end, pcs)


def causes(measurement):
    """For each cause of CAUSES that is met, how many samples it has, of all harts and events."""
    found = Counter()
    for paths in measurement.columns:
        for path in paths:
            if path.end != WHOLE:
                found[path.end] += path.samples
    return found
