"""The fields of a database: rule 2 of rules.py. A field that isn't whole is refused with its offset."""
import operator
from array import array
from itertools import compress, repeat

from . import by_numpy, planes_by_numpy
from .columns import merged, numbers, picked, picker, signed
from .database import (
    ADDRESS,
    INLINE,
    ROW,
    STMT,
    Context,
    Database,
    Event,
    File,
    Malformed,
    Nodes,
    Plane,
    Procedure,
)


def read_fields(data, version):
    """The database of a version whose fields these bytes are; the context plane's are asked by `need_context`."""
    reader = _Reader(data, 8)
    events = [Event(0, reader.word(), 8, 8)] if version == 1 else _read_events(reader)
    runs_offset = reader.at
    runs = [reader.word() for _ in range(reader.word() if version > 2 else 1)]
    procedures, files, nodes = (reader.word() for _ in range(3))
    return Database(
        version,
        events,
        runs,
        runs_offset,
        [_read_name(reader, Procedure) for _ in range(procedures)],
        [_read_name(reader, File) for _ in range(files)],
        _read_nodes(reader, nodes),
        [_read_plane(reader, event.period) for _ in range(sum(runs)) for event in events],
        Context(reader.at, memoryview(data)[reader.at :]),
    )


class _Reader:
    """A place in the bytes."""

    def __init__(self, data, at):
        self.data, self.at = data, at

    def need(self, length):
        """Refuses a field of this length that runs past the end."""
        if self.at + length > len(self.data):
            raise Malformed(2, self.at)

    def word(self):
        self.need(4)
        self.at += 4
        return int.from_bytes(self.data[self.at - 4 : self.at], "little")

    def text(self, length):
        self.need(length)
        self.at += length
        return self.data[self.at - length : self.at]


def _read_events(reader):
    """Pairs of an event's number and its period."""
    return [Event(*(reader.word(), reader.word()), reader.at - 8, reader.at - 4) for _ in range(reader.word())]


def _read_name(reader, entry):
    """A procedure or a file: two words and a name."""
    offset = reader.at
    first, second = reader.word(), reader.word()
    return entry(first, second, reader.text(reader.word()), offset)


# ---- the nodes

LONGEST = 24


# Of a scope, and of a scope with eight times the node's words.
_HAS_NO_LINE = bytes(255 * (scope < INLINE) for scope in range(256))
_SHIFTED = bytes(words << 3 & 255 for words in range(256))
_HAS_NO_FILE = bytes(255 * (scope & 7 < INLINE or scope >> 3 == 4 + (scope & 7 == INLINE)) for scope in range(256))


def _read_nodes(reader, count):
    if by_numpy.is_here(count):
        nodes, reader.at = by_numpy.nodes_of(reader.data, reader.at, count) or _refuse_node(reader, count)
        return nodes
    start = reader.at
    data = reader.data[start : start + LONGEST * count]
    words = numbers("I", data[: len(data) // 4 * 4])
    starts = _starts(words, count)
    scope = _scopes(words, starts, count)
    if scope is None:
        _refuse_node(reader, count)
    reader.at = start + 4 * starts[-1]
    ends = starts[1:]
    del starts[-1]
    at_starts, at_ends, nothing = picker(starts), picker(ends), array("I", [0])
    parent, operand = array("I", at_starts(words)), array("I", at_starts(words[2:]))
    # A node's last word and the one before it.
    last, before = array("I", at_ends(nothing + words)), array("I", at_ends(nothing * 2 + words))
    shape = merged(scope, bytes(map(operator.sub, ends, starts)).translate(_SHIFTED))
    line_file, line = signed(before, shape.translate(_HAS_NO_FILE)), signed(last, scope.translate(_HAS_NO_LINE))
    return Nodes(array("i", parent.tobytes()), scope, operand, line_file, line, start)


def _starts(words, count):
    """The word at which each node begins, and the one at which the last ends; as many as there are where one isn't whole
    or has an unknown kind of line. Scopes that are unknown are taken for statements."""
    starts, at = [0], 0
    add = starts.append
    try:
        for _ in repeat(None, count):
            scope = words[at + 1]
            if scope > INLINE:
                at += (5, 4)[words[at + 2]]
            else:
                at += (6, 5)[words[at + 3]] if scope == INLINE else 3
            add(at)
    except IndexError:
        pass
    return starts


def _scopes(words, starts, count):
    """The nodes' scopes; nothing where one is unknown, or a node isn't whole."""
    if len(starts) <= count or starts[-1] > len(words):
        return None
    try:
        scope = bytes(picked(words[1:], starts[:-1]))
    except ValueError:
        return None
    return None if scope and max(scope) > STMT else scope


def _refuse_node(reader, count):
    """Refuses the first node that isn't whole or has an unknown tag."""
    start = reader.at
    words = numbers("I", reader.data[start : start + (len(reader.data) - start) // 4 * 4])
    at, most = 0, len(words)
    for _ in range(count):
        if at + 2 > most:
            raise Malformed(2, start + 4 * most)
        scope = words[at + 1]
        if scope > STMT:
            raise Malformed(2, start + 4 * (at + 1))
        line_at = at + 2 + (scope <= INLINE)
        if line_at + (scope >= INLINE) > most:
            raise Malformed(2, start + 4 * most)
        if scope >= INLINE and words[line_at] > ADDRESS:
            raise Malformed(2, start + 4 * line_at)
        at = line_at + (0 if scope < INLINE else 3 if words[line_at] == ROW else 2)
        if at > most:
            raise Malformed(2, start + 4 * most)
    raise AssertionError("nodes that are whole")


# ---- the planes

# Of the least byte of a kind: 1 where it is exclusive.
_IS_EXCLUSIVE = bytes([1]) + bytes(255)


def _read_plane(reader, period):
    offset = reader.at
    count = reader.word()
    whole = (len(reader.data) - reader.at) // 16
    if count > whole:
        rest = (len(reader.data) - reader.at) % 16
        raise Malformed(2, reader.at + 16 * whole + (rest // 4 * 4 if rest < 8 else 8))
    data = memoryview(reader.data)[reader.at : reader.at + 16 * count]
    reader.at += 16 * count
    if by_numpy.is_here(count):
        return Plane(offset, data, *planes_by_numpy.exclusive_of(data, period))
    is_exclusive = bytes(data[4::16]).translate(_IS_EXCLUSIVE)
    nodes = array("I", compress(numbers("I", data)[0::4], is_exclusive))
    values = array("Q", compress(numbers("Q", data)[1::2], is_exclusive))
    samples = array("Q", [value // period for value in values] if period else values)
    return Plane(offset, data, nodes, values, samples)


def need_context(database):
    """Refuses a number of entries of the context plane that don't lie in the file, and what follows the last field.
    What the entries are is rule 7's."""
    start, data = database.context.offset, database.context.data
    words = numbers("I", data[: len(data) // 4 * 4])
    at, most = 0, len(words)
    for _ in range(len(database.nodes)):
        if at >= most:
            raise Malformed(2, start + 4 * most)
        count = words[at]
        if at + 1 + 4 * count > most:
            entries, rest = divmod(most - at - 1, 4)
            raise Malformed(2, start + 4 * (at + 1 + 4 * entries + min(rest, 2)))
        at += 1 + 4 * count
    if 4 * at != len(data):
        raise Malformed(2, start + 4 * at)
