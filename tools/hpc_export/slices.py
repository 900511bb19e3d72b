"""The slices of a trace: the frames of each hart's call paths, each from where it begins to be there to where it ends.

Neighbours that are equal are one slice. A frame is the path's root, a procedure, or an inlined procedure; places of
calls have none, so two calls of one procedure from two places that follow one another with no sample between are one
slice.
"""
from .contexts import ROOT_NAMES
from .measurement import WHOLE


class Slices:
    """`labels` has the name of each frame of the harts that were asked for."""

    def __init__(self, trace, listing):
        self.trace, self.listing, self.labels, self.numbers, self.made = trace, listing, [], {}, {}

    def _frame(self, key, label):
        number = self.numbers.setdefault(key, len(self.labels))
        if number == len(self.labels):
            self.labels.append(label)
        return number

    def _frames_at(self, pc):
        name, which, inlined = self.listing.at(pc)
        yield self._frame(which, name)
        for called in inlined:
            yield self._frame(("inlined", called), f"[I] {called}")

    def _path(self, end, pcs, known):
        """The frames of a path, the outermost first."""
        root = int(end != WHOLE)
        frames = [self._frame(("root", root), ROOT_NAMES[root])]
        for pc in reversed(pcs):
            at_pc = known.get(pc)
            if at_pc is None:
                at_pc = known[pc] = tuple(self._frames_at(pc))
            frames += at_pc
        return frames

    def paths(self, number):
        """The frames of each path of a hart."""
        if number not in self.made:
            known = {}
            self.made[number] = [self._path(end, pcs, known) for end, pcs in self.trace.harts[number].paths]
        return self.made[number]

    def changes(self, number):
        """Of a hart each moment at which frames end or begin: those that end, the innermost first, and those that
        begin, the outermost first."""
        hart, period, paths = self.trace.harts[number], self.trace.period, self.paths(number)
        opened, sample = [], 1
        for place, samples in hart.stretches():
            path = paths[place]
            same = _alike(opened, path)
            if same < len(opened) or same < len(path):
                yield sample * period - 1, opened[same:][::-1], path[same:]
            opened = path
            sample += samples
        if opened:
            yield hart.retired, opened[::-1], []


def _alike(one, other):
    """How many frames both begin with."""
    if one == other:
        return len(one)
    for place, (left, right) in enumerate(zip(one, other)):
        if left != right:
            return place
    return min(len(one), len(other))
