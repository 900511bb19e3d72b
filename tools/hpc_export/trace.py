"""A trace, docs/FORMATS.md: the samples of each hart in their order. Nothing of the proved program is called.

`read` gives a Trace, or raises Malformed with the offset that the program says.

A moment is a number of instructions that a hart has retired. The instruction with the number m is drawn from m - 1 to
m, and sample k, counted from 1, is shown from the instruction k times the period up to the next sample's, the last one
up to the hart's last instruction: what `hpc timeline` has in the cell of each of these moments.
"""
from array import array
from dataclasses import dataclass
from itertools import groupby
from typing import List, Tuple

from .columns import numbers
from .measurement import DEPTH, MOST_FRAMES, MOST_FRAMES_OF_PATH, MOST_HARTS, MOST_SAMPLES, WHOLE

MAGIC = b"HPCTRAC1"


class Malformed(Exception):
    """The file breaks a rule at an offset."""

    def __init__(self, offset):
        super().__init__(f"trace at {offset}")
        self.offset = offset


@dataclass
class Hart:
    """The instructions that it retired; its distinct paths, each an end and pcs, the innermost first; and for each
    sample the place of its path."""

    retired: int
    paths: List[Tuple[int, array]]
    places: array

    def stretches(self):
        """Each path with the number of samples that follow one another with it."""
        for place, samples in groupby(self.places):
            yield place, sum(1 for _ in samples)


@dataclass
class Trace:
    """The length and the entry address of the program's file, the period in retired instructions, and the harts."""

    length: int
    entry: int
    period: int
    harts: List[Hart]


class _Words:
    """The words behind the magic number, one after another; one that isn't whole, or out of its range, is at fault."""

    def __init__(self, data):
        self.all = numbers("I", data[8 : len(data) // 4 * 4])
        self.next = 0

    def offset(self):
        return 8 + 4 * self.next

    def word(self, least=0, most=0xFFFFFFFF):
        if self.next == len(self.all) or not least <= self.all[self.next] <= most:
            raise Malformed(self.offset())
        self.next += 1
        return self.all[self.next - 1]

    def long(self):
        """A number of 8 bytes."""
        if self.next + 2 > len(self.all):
            raise Malformed(self.offset())
        low, high = self.all[self.next : self.next + 2]
        self.next += 2
        return high << 32 | low

    def many(self, count):
        if self.next + count > len(self.all):
            raise Malformed(8 + 4 * len(self.all))
        self.next += count
        return self.all[self.next - count : self.next]


def read(data):
    """The trace that these bytes are, or Malformed."""
    if data[:8] != MAGIC:
        raise Malformed(0)
    words = _Words(data)
    trace = Trace(words.word(), words.word(), words.word(1), [])
    samples = frames = 0
    for _ in range(words.word(1, MOST_HARTS)):
        retired = words.long()
        paths = _paths(words, MOST_FRAMES - frames)
        places = _places(words, len(paths), retired // trace.period, MOST_SAMPLES - samples)
        trace.harts.append(Hart(retired, paths, places))
        samples, frames = samples + len(places), frames + sum(len(pcs) for _, pcs in paths)
    if words.offset() != len(data):
        raise Malformed(words.offset())
    return trace


def _paths(words, frames):
    """The distinct paths of a hart, of so many frames at most."""
    paths, known = [], set()
    for _ in range(words.word()):
        end, depth = words.word(WHOLE, DEPTH), words.word(1, min(MOST_FRAMES_OF_PATH, frames))
        start = words.offset()
        pcs = words.many(depth)
        known.add((end, pcs.tobytes()))
        if len(known) == len(paths):
            raise Malformed(start)
        paths.append((end, pcs))
        frames -= depth
    return paths


def _places(words, paths, wanted, most):
    """The places of so many samples, where a hart has a number of paths."""
    at = words.offset()
    if words.word(0, most) != wanted:
        raise Malformed(at)
    start = words.next
    places = words.all[start : start + wanted]
    # The paths in the order of their first samples, as far as this is 0, 1, 2 and so on.
    if list(dict.fromkeys(places)) == list(range(paths)) and len(places) == wanted:
        return words.many(wanted)
    used = 0
    for _ in range(wanted):
        place = words.word(0, min(used, paths - 1)) if paths else words.word(1, 0)
        used += place == used
    raise Malformed(words.offset())
