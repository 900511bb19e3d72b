"""Collapsed stacks: a line for each stack of procedures, outermost first, with the cost that is its own.

As flamegraph.pl, inferno and speedscope read them: frames are separated by `;`, the cost stands behind a space. Inlined
procedures end by `_[i]`, as flamegraph.pl expects. With places the places of calls and the sampled statements are
frames too. Stacks of one text are one line, in the order in which they come first, or by falling cost. Beside another
database each line has two costs, that before and that after.
"""
from dataclasses import replace
from itertools import compress, islice

from . import by_numpy, stacks_by_numpy
from .columns import picked
from .contexts import ROOT_NAMES, Labels, encoded
from .database import CALL, INLINE, PROC, ROOT, STMT


def write(out, database, options):
    if options.base:
        _write_compared(out, database, options)
        return
    lines = _lines(_costs(database, options))
    for piece in iter(lambda: b"".join(islice(lines, _MANY)), b""):
        out.write(piece)


# So many lines are written together.
_MANY = 1 << 14


def _lines(costs):
    return (b"%b %d\n" % line for line in costs)


def _write_compared(out, database, options):
    """Each stack of one of both databases, with its cost before and after, as differential flame graphs take it."""
    base = options.base
    after = dict(_costs(database, options))
    before = dict(_costs(base.database, replace(options, shown=base.shown[options.every.index(options.shown)])))
    stacks = [*after, *(stack for stack in before if stack not in after)]
    if options.by_cost:
        stacks.sort(key=lambda stack: (after.get(stack, 0), before.get(stack, 0)), reverse=True)
    out.writelines(b"%b %d %d\n" % (stack, before.get(stack, 0), after.get(stack, 0)) for stack in stacks)


def _costs(database, options):
    """The text of each stack and its cost."""
    planes = [options.shown.plane(database, hart) for hart in options.shown.harts]
    frames = _Frames(database)
    above, last, costs = _stacks_with_costs(database, options, frames, planes)
    stacks = [stack for stack, cost in enumerate(costs) if cost]
    if options.by_cost:
        stacks.sort(key=costs.__getitem__, reverse=True)
    return zip(_texts(stacks, above, last, frames.texts), map(costs.__getitem__, stacks))


def _stacks_with_costs(database, options, frames, planes):
    """The distinct stacks, as _stacks has them, and the cost of each."""
    if by_numpy.is_here(len(database.nodes)):
        stacks = _stacks_by_numpy(database, options, frames)
        return stacks.above.tolist(), stacks.last.tolist(), stacks.costs(planes)
    above, last, stack_of = _stacks(database.nodes, _frames_of(database, options, frames), len(frames.texts))
    costs = [0] * len(above)
    for plane in planes:
        for stack, value in zip(picked(stack_of, plane.node), plane.value):
            costs[stack] += value
    return above, last, costs


def _stacks_by_numpy(database, options, frames):
    nodes = database.nodes
    found = stacks_by_numpy.frames_of(nodes, frames.of_scope)
    if options.with_places:
        for node in compress(range(len(nodes)), nodes.scope.translate(_IS_PLACE)):
            found[node] = frames.of_place(node)
    if options.min_percent:
        found = stacks_by_numpy.without(found, options.shown.kept(database, options.min_percent))
    return stacks_by_numpy.Stacks(nodes, found, len(frames.texts))


def paths(database, options):
    """The text of the stack that each node is in."""
    frames = _Frames(database)
    if by_numpy.is_here(len(database.nodes)):
        stacks = _stacks_by_numpy(database, options, frames)
        return _texts(stacks.of.tolist(), stacks.above.tolist(), stacks.last.tolist(), frames.texts)
    above, last, stack_of = _stacks(database.nodes, _frames_of(database, options, frames), len(frames.texts))
    return _texts(stack_of[:-1], above, last, frames.texts)


class _Frames:
    """The distinct texts of frames. A frame is the number of its text."""

    def __init__(self, database):
        self.labels, self.texts, self.numbers = Labels(database), [], {}
        names = [name.replace(";", ":") for name in self.labels.procedures]
        self.of_scope = {
            ROOT: list(map(self.number, ROOT_NAMES)),
            PROC: list(map(self.number, names)),
            INLINE: [self.number(name + "_[i]") for name in names],
        }

    def number(self, text):
        text = encoded(text)
        found = self.numbers.setdefault(text, len(self.texts))
        if found == len(self.texts):
            self.texts.append(text)
        return found

    def of_place(self, node):
        return self.number(self.labels[node].replace(";", ":"))


def _frames_of(database, options, frames):
    """Each node's frame, or -1 where it is none."""
    nodes = database.nodes
    # Of the operands those of each scope alone are frames.
    of_scope = [frames.of_scope.get(scope) for scope in range(STMT + 1)]
    found = [-1] * len(nodes)
    rows = zip(range(len(nodes)), nodes.scope, nodes.operand)
    for node, scope, operand in compress(rows, nodes.scope.translate(_IS_FRAME)):
        found[node] = of_scope[scope][operand]
    if options.with_places:
        for node, scope in enumerate(nodes.scope):
            if scope >= CALL:
                found[node] = frames.of_place(node)
    if options.min_percent:
        for node, keeps in enumerate(options.shown.kept(database, options.min_percent)):
            if not keeps:
                found[node] = -1
    return found


_IS_FRAME = bytes(scope < CALL for scope in range(256))
_IS_PLACE = bytes(scope in (CALL, STMT) for scope in range(256))


def _stacks(nodes, frames, count):
    """The distinct stacks, of so many frames: for each the stack above it (-1 where there is none) and its last frame; and
    for each node the stack down to it. A stack is known by its last frame and the one above it."""
    numbers, above, last = {}, [], []
    stack_of = [-1] * (len(nodes) + 1)
    for node, (parent, frame) in enumerate(zip(nodes.parent, frames)):
        if frame < 0:
            stack_of[node] = stack_of[parent]
            continue
        key = stack_of[parent] * count + frame
        stack = numbers.get(key)
        if stack is None:
            stack = numbers[key] = len(above)
            above.append(key // count)
            last.append(frame)
        stack_of[node] = stack
    return above, last, stack_of


def _texts(stacks, above, last, frames):
    """The texts of stacks, one after another. Of each depth the last text is at hand, with the stack that has it."""
    depths = []
    for stack in above:
        depths.append(depths[stack] + 1 if stack >= 0 else 0)
    at_hand, texts = [-1] * (max(depths, default=0) + 1), [b""] * (max(depths, default=0) + 1)
    below = [b";" + frame for frame in frames]
    for stack in stacks:
        depth, up, missing = depths[stack], above[stack], [stack]
        while up >= 0 and at_hand[depth - 1] != up:
            missing.append(up)
            depth, up = depth - 1, above[up]
        for stack in reversed(missing):
            text = texts[depth - 1] + below[last[stack]] if depth else frames[last[stack]]
            at_hand[depth], texts[depth] = stack, text
            depth += 1
        yield text
