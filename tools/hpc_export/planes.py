"""Rules 6 and 7: both planes are what the exclusive values give.

The samples of all columns are added up in one walk over the nodes: a node's are one number, with 32 bits for each
column. There are at most 2^20 samples, so no sum touches the next. With these sums each plane is compared as a whole,
of many nodes by a process of its own, while this one begins to write the export.
"""
import struct
from array import array
from itertools import repeat

from . import by_numpy, many_columns, planes_by_numpy
from .background import asked
from .columns import ascend, numbers, packed, picked, whole, widened
from .database import EXCLUSIVE, FRAME, INCLUSIVE, PROC, STMT, Malformed
from .fields import need_context

MOST_SAMPLES = 1 << 20
WIDTH = 32
# So many columns are added up at once. Of more each is added up by itself (many_columns.py).
MOST_PACKED = 64
# So many nodes are worth a process.
MANY = 1 << 16


def begin_planes(database):
    """Refuses exclusive values that aren't samples of statements, and begins to ask of the rest; gives what waits for the
    answer and refuses the first place that breaks a rule."""
    if not _are_samples(database):
        _find_profile(database)
    is_large = len(database.nodes) >= MANY
    if database.columns > MOST_PACKED:
        questions = [lambda: many_columns.is_profile(database), lambda: many_columns.is_context(database)]
    elif by_numpy.is_here(len(database.nodes)):
        questions = [lambda: planes_by_numpy.are_planes(database)]
    else:
        questions = [lambda: _is_profile(database, _sums(database)), lambda: _is_context(database, _sums(database))]
    answers = [asked(question, is_large) for question in questions]

    def finish():
        # Asked again, there is nothing left to wait for.
        found = [answers.pop()() for _ in range(len(answers))]
        if not all(found):
            need_context(database)
            _find_profile(database)
            _find_context(database)

    return finish


def _are_samples(database):
    """Whether the exclusive values are numbers of samples at statements, and all are few enough for the sums."""
    planes, nodes = database.planes, database.nodes
    if by_numpy.is_here(len(nodes)):
        return planes_by_numpy.are_samples(database, MOST_SAMPLES)
    return (
        all(not plane.node or max(plane.node) < len(nodes) for plane in planes)
        and all(0 not in plane.value for plane in planes)
        and all(set(picked(nodes.scope, plane.node)) <= {STMT} for plane in planes)
        and all(
            whole(packed(plane.samples)) * database.period(column) == whole(packed(plane.value))
            for column, plane in enumerate(planes)
        )
        and sum(sum(plane.samples) for plane in planes) <= MOST_SAMPLES
    )


def _half(database):
    """The bits of the columns' samples of one kind."""
    return WIDTH * database.columns


def _sums(database):
    """Each node's samples: the frame ones of each column, above these the inclusive ones, and above these a bit for a
    statement, whose exclusive samples are the same."""
    nodes, half = database.nodes, _half(database)
    sums = list(map((0, 0, 0, 0, 1 << 2 * half).__getitem__, nodes.scope)) + [0]
    for column, plane in enumerate(database.planes):
        one = (1 | 1 << half) << WIDTH * column
        for node, samples in zip(plane.node, plane.samples):
            sums[node] += samples * one
    # What goes up to the node above: all, but from a procedure to its caller the inclusive samples alone.
    goes_up = [(1 << 2 * half) - 1] * 5
    goes_up[PROC] ^= (1 << half) - 1
    node = len(nodes)
    for parent, part in zip(reversed(nodes.parent), map(goes_up.__getitem__, reversed(nodes.scope))):
        node -= 1
        sums[parent] += sums[node] & part
    # The last one is that above the roots.
    sums.pop()
    return sums


def _is_profile(database, sums):
    """Whether the entries of the profile plane ascend and are these sums. As many are expected as the context plane has."""
    length, fields = len(database.context.data) - 4 * len(sums), 2 * database.columns + 1
    counts = numbers("I", b"".join(map(int.to_bytes, sums, repeat(4 * fields), repeat("little"))))
    return sum(len(plane.data) for plane in database.planes) == length and all(
        _is_plane(database, column, counts, fields) for column in range(database.columns)
    )


def _is_plane(database, column, counts, fields):
    """Whether the entries of a column ascend, and are these counts of samples, so many to a node. Exclusive ones are
    known to be at statements, where they are the frame's."""
    plane = database.planes[column]
    words, kinds = numbers("I", plane.data), bytes(plane.data[4::16])
    if packed(words[1::4]) != widened(kinds) or not set(kinds) <= {EXCLUSIVE, FRAME, INCLUSIVE}:
        return False
    nodes, values = words[0::4], numbers("Q", plane.data)[1::2]
    all_nodes, count = whole(packed(nodes)), len(nodes)
    if max(nodes, default=-1) >= len(database.nodes) or not ascend(all_nodes << 2 | whole(widened(kinds)), count):
        return False
    place_of = bytes([column, column, database.columns + column]).ljust(256, b"\0")
    places = all_nodes * fields + whole(widened(kinds.translate(place_of)))
    found = array("Q", picked(counts, numbers("I", places.to_bytes(4 * count, "little"))))
    return 0 not in found and whole(packed(found)) * database.period(column) == whole(packed(values))


def _is_context(database, sums):
    """Whether the context plane is that of these sums, and each statement has samples."""
    parts = _Parts(database)
    if b"".join(map(parts.__getitem__, sums)) != database.context.data:
        return False
    # Of a statement without samples the sums are this bit alone.
    return 1 << 2 * _half(database) not in parts


class _Entries(dict):
    """By a number of samples the entry of the context plane that begins with these bytes."""

    def __init__(self, head, period):
        super().__init__()
        self.head, self.period = head, period

    def __missing__(self, samples):
        found = self[samples] = self.head + (samples * self.period).to_bytes(8, "little")
        return found


class _Parts(dict):
    """By a node's sums its part of the context plane. Many nodes have the same."""

    def __init__(self, database):
        super().__init__()
        columns = range(database.columns)
        self.exclusive, *kinds = (
            [_Entries(struct.pack("<II", kind, column), database.period(column)) for column in columns]
            for kind in range(3)
        )
        self.others = kinds[0] + kinds[1]
        self.fields = struct.Struct(f"<{len(self.others)}II")

    def __missing__(self, sums):
        *counts, is_stmt = self.fields.unpack(sums.to_bytes(self.fields.size, "little"))
        entries = [entry[count] for entry, count in zip(self.exclusive, counts) if count] if is_stmt else []
        entries += [entry[count] for entry, count in zip(self.others, counts) if count]
        found = self[sums] = len(entries).to_bytes(4, "little") + b"".join(entries)
        return found


# ---- the first place that breaks rule 6


def _find_profile(database):
    nodes, samples = database.nodes, 0
    columns = [plane.columns() for plane in database.planes]
    for number, (plane, entries) in enumerate(zip(database.planes, columns)):
        samples = _check_entries(database, number, entries, samples)
    for plane, entries in zip(database.planes, columns):
        _find_difference(nodes, plane, entries)
    sampled = {node for plane in database.planes for node in plane.node}
    for node, kind in enumerate(nodes.scope):
        if kind == STMT and node not in sampled:
            raise Malformed(6, nodes.offset_of(node))


def _check_entries(database, column, entries, samples):
    """The first part of the rule for one column; gives the samples up to here."""
    plane, period = database.planes[column], database.period(column)
    count, scope, before = len(database.nodes), database.nodes.scope, -1
    for place, (node, kind, value) in enumerate(zip(*entries)):
        key = node * 3 + kind
        if node >= count or kind > INCLUSIVE or value == 0 or key <= before:
            raise Malformed(6, plane.entries + 16 * place)
        if kind == EXCLUSIVE:
            samples += value // period
            if scope[node] != STMT or value % period or samples > MOST_SAMPLES:
                raise Malformed(6, plane.entries + 16 * place)
        before = key
    return samples


def _find_difference(nodes, plane, entries):
    """Refuses the first field that differs from what the exclusive values give, if one does."""
    exclusive = array("Q", bytes(8 * len(nodes)))
    for node, kind, value in zip(*entries):
        if kind == EXCLUSIVE:
            exclusive[node] = value
    frame, inclusive = array("Q", exclusive), array("Q", exclusive)
    for node in range(len(nodes) - 1, -1, -1):
        parent = nodes.parent[node]
        if parent >= 0:
            inclusive[parent] += inclusive[node]
            if nodes.scope[node] != PROC:
                frame[parent] += frame[node]
    wanted = [
        (node, kind, values[node])
        for node in range(len(nodes))
        for kind, values in enumerate((exclusive, frame, inclusive))
        if values[node]
    ]
    if len(wanted) != len(entries[0]):
        raise Malformed(6, plane.offset)
    for place, fields in enumerate(zip(wanted, zip(*entries))):
        for step, (want, found) in zip((0, 4, 8), zip(*fields)):
            if want != found:
                raise Malformed(6, plane.entries + 16 * place + step)


# ---- the first place that breaks rule 7


def _find_context(database):
    start, data = database.context.offset, database.context.data
    is_packed, at = database.columns <= MOST_PACKED, 0
    parts = map(_Parts(database).__getitem__, _sums(database)) if is_packed else many_columns.parts(database)
    for part in parts:
        for word in range(0, len(part), 4):
            if data[at + word : at + word + 4] != part[word : word + 4]:
                # The second word of a value belongs to the field that begins at the first; a node's number of entries
                # stands before them.
                raise Malformed(7, start + at + word - (4 if word and word % 16 == 0 else 0))
        at += len(part)
