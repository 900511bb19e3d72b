"""speedscope's file format (https://www.speedscope.app/file-format-schema.json), a profile for each hart.

The profiles are evented. Of a database the samples are walked in the tree's order, a frame opens where the first of its
samples is met and closes behind the last, and the time is the cost so far. So the file grows with the nodes, and not
with the paths' lengths. A frame that would close and open again at once stays open. Of a trace the time is the hart's
retired instructions.
"""
import json
import operator
from itertools import compress

from . import by_numpy, stacks_by_numpy
from .columns import packed, picked
from .contexts import Labels, readable
from .database import CALL, INLINE, STMT

SCHEMA = "https://www.speedscope.app/file-format-schema.json"


def write(out, database, options):
    frames = (_FramesByNumpy if by_numpy.is_here(len(database.nodes)) else _Frames)(database, options)
    _begin(out, options.title, frames.table)
    for hart in options.shown.harts:
        plane = options.shown.plane(database, hart)
        name = database.hart_name(hart) + (f", {options.shown.event(database).name}" if database.version > 1 else "")
        _profile(out, hart == options.shown.harts[0], name, sum(plane.value), frames.events(plane))
    out.write(b"]}\n")


def write_trace(out, slices, harts, title):
    """The slices of a trace."""
    # The frames come first in the file.
    for hart in harts:
        slices.paths(hart)
    _begin(out, title, [{"name": label} for label in slices.labels])
    for hart in harts:
        _profile(out, hart == harts[0], f"hart {hart}", slices.trace.harts[hart].retired, _moved(slices.changes(hart)))
    out.write(b"]}\n")


def _moved(changes):
    """The events of frames that end and begin, as one text."""
    found = []
    for moment, closed, opened in changes:
        found += [f'{{"type":"C","frame":{frame},"at":{moment}}}' for frame in closed]
        found += [f'{{"type":"O","frame":{frame},"at":{moment}}}' for frame in opened]
    return ",\n".join(found).encode()


def _begin(out, title, frames):
    out.write(b'{"$schema":"%s","exporter":"hpc-export",' % SCHEMA.encode())
    out.write(b'"name":%s,"activeProfileIndex":0,' % _json(title))
    out.write(b'"shared":{"frames":[\n%s]},"profiles":[' % b",\n".join(_json(frame) for frame in frames))


def _profile(out, is_first, name, end, events):
    out.write(b"" if is_first else b",")
    out.write(b'{"type":"evented","name":%s,"unit":"none","startValue":0,' % _json(name))
    out.write(b'"endValue":%d,"events":[' % end)
    if events:
        out.write(b"\n")
        out.write(events)
    out.write(b"]}")


def _json(value):
    return json.dumps(value, separators=(",", ":")).encode()


_IS_OPEN = bytes(scope < STMT for scope in range(256))
_IS_ZERO = bytes([1]) + bytes(255)


class _Table:
    """The frames' table: a frame of a procedure has the file of its first line."""

    def __init__(self, database, options):
        self.nodes, self.labels = database.nodes, Labels(database, readable)
        self.with_places, self.table = options.with_places, []

    def frame(self, node):
        nodes, labels = self.nodes, self.labels
        if nodes.scope[node] == INLINE:
            return {"name": f"[I] {labels.procedure(node)}"}
        if nodes.scope[node] >= CALL and nodes.line_file[node] >= 0:
            return {"name": labels[node], "file": labels.files[nodes.line_file[node]], "line": nodes.line[node]}
        return {"name": labels[node]}

    def heads(self, kind):
        """How the events of each frame begin."""
        return [f'{{"type":"{kind}","frame":{frame},"at":' for frame in range(len(self.table))]


class _FramesByNumpy(_Table):
    """The table, and the events of each column."""

    def __init__(self, database, options):
        super().__init__(database, options)
        found = stacks_by_numpy.numbered(self.nodes, self.with_places)
        if options.min_percent:
            found = stacks_by_numpy.without(found, options.shown.kept(database, options.min_percent))
        frames, first = stacks_by_numpy.renumbered(found)
        self.table = list(map(self.frame, first))
        for frame, file in stacks_by_numpy.files_of(self.nodes, frames):
            self.table[frame].setdefault("file", self.labels.files[file])
        stacks = stacks_by_numpy.Stacks(self.nodes, frames, len(self.table))
        self.openings = stacks_by_numpy.Openings(self.nodes, stacks)
        self.texts = [[head.encode() for head in self.heads(kind)] for kind in "OC"]

    def events(self, plane):
        """The events as one text: O or C, frame, cost so far."""
        places, closes, frames = self.openings.of(plane)
        times = stacks_by_numpy.costs_before(plane)
        heads = map(sum(self.texts, []).__getitem__, (closes * len(self.table) + frames).tolist())
        ends = map([b"%d},\n" % time for time in times].__getitem__, places.tolist())
        return b"".join(map(operator.add, heads, ends))[:-2]


class _Frames(_Table):
    """For each node its frame (-1 where it is none); the nearest node at or above it with a frame (-1 where there is
    none), but of a statement that has none; and for a node with a frame the nearest above it, and how many are above."""

    def __init__(self, database, options):
        super().__init__(database, options)
        nothing = [-1] * (len(self.nodes) + 1)
        self.of, self.nearest, self.above, self.depth = nothing, nothing[:], nothing[:], nothing[:]
        self._number(options.shown.kept(database, options.min_percent))
        self._find_files()

    def _number(self, kept):
        """Gives each node its frame, in the order in which frames come first."""
        nodes, numbers, nearest, depth = self.nodes, {}, self.nearest, self.depth
        rows = zip(range(len(nodes)), nodes.parent, nodes.scope, nodes.operand, kept)
        for node, parent, scope, operand, keeps in rows if self.with_places else self._opens(rows):
            above = nearest[parent]
            if not keeps or scope >= CALL and not self.with_places:
                nearest[node] = above
                continue
            key = operand << 2 | scope if scope < CALL else (scope, nodes.line_file[node], nodes.line[node])
            frame = numbers.get(key)
            if frame is None:
                frame = numbers[key] = len(self.table)
                self.table.append(self.frame(node))
            self.of[node], nearest[node], self.above[node], depth[node] = frame, node, above, depth[above] + 1

    def _opens(self, rows):
        return compress(rows, self.nodes.scope.translate(_IS_OPEN))

    def _find_files(self):
        """A frame without a file has that of the first place in it."""
        nodes = self.nodes
        # Of -1 the highest byte isn't 0.
        has_file = packed(nodes.line_file)[7::8].translate(_IS_ZERO)
        frames = picked(self.of, picked(self.nearest, list(compress(nodes.parent, has_file))))
        files = list(compress(nodes.line_file, has_file))
        # Of two the first one stays.
        for frame, file in dict(zip(reversed(frames), reversed(files))).items():
            self.table[frame].setdefault("file", self.labels.files[file])

    def sampled(self, plane):
        """The nearest node with a frame for each sampled statement of a plane."""
        return picked(self.nearest, plane.node if self.with_places else picked(self.nodes.parent, plane.node))

    def events(self, plane):
        """The events as one text: O or C, frame, cost so far."""
        return ",\n".join(_events(self, plane)).encode()


def _events(frames, plane):
    """The texts of the events."""
    above, depth, of = frames.above, frames.depth, frames.of
    opens, closes = frames.heads("O"), frames.heads("C")
    # The nodes down to the last sample's, as many as its level says, and the frames that are open.
    path, levels, opened, events, at, before = [-1] * (max(depth) + 1), 0, [], [], 0, None
    for node, value in zip(frames.sampled(plane), plane.value):
        if node == before:
            at += value
            continue
        before = node
        # The nodes from the last one that is open down to this one.
        below = []
        level = depth[node]
        while node >= 0 and (level >= levels or path[level] != node):
            below.append(node)
            node, level = above[node], level - 1
        if below or level + 1 < levels:
            time, levels = f"{at}}}", level + 1
            for node in reversed(below):
                frame, path[levels] = of[node], node
                if levels == len(opened) or opened[levels] != frame:
                    while len(opened) > levels:
                        events.append(closes[opened.pop()] + time)
                    opened.append(frame)
                    events.append(opens[frame] + time)
                levels += 1
            while len(opened) > levels:
                events.append(closes[opened.pop()] + time)
        at += value
    events += [f"{closes[frame]}{at}}}" for frame in reversed(opened)]
    return events
