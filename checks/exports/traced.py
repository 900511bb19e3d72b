"""Traces of profiles, and the listings of their programs, written from docs/FORMATS.md: each frame of a call path gets
an address of its own, in a procedure that has a range for all of its frames."""
import pathlib
import random
import sys

sys.path.insert(0, str(pathlib.Path(__file__).resolve().parents[1] / "files"))

import databases
from exporter import printed
from trace_files import written

LENGTH, ENTRY, SIZE, BEGIN = 1000, 0x10000, 0x10000, 0x10000
WHOLE, NO_FDE = 0, 1
UNKNOWN = databases.NAMELESS[2]


class Traced:
    """`trace` and `listing` are bytes; `shown` has for each hart the frames of each sample's path, its root first, in
    order, each frame a name and what tells it from others; `retired` has the instructions of each hart."""

    def __init__(self, profile, period, harts, rest=0, seed=1):
        self.places, self.procedures, self.period = {}, {}, period
        self.retired, self.shown, columns = [], [], []
        chance = random.Random(seed)
        for hart in range(harts):
            own = [(count, path) for owner, count, path in profile if owner == hart]
            pieces = [piece for count, path in own for piece in self._cut(count, path, chance)]
            chance.shuffle(pieces)
            samples = [path for count, path in pieces for _ in range(count)]
            paths = {path: None for path in samples}
            numbers = {path: number for number, path in enumerate(paths)}
            # The harts have some instructions behind their last samples.
            self.retired.append(len(samples) * period + min(rest + hart, period - 1))
            self.shown.append([self._frames(path) for path in samples])
            raw = [self.raw(path) for path in paths]
            columns.append((self.retired[-1], raw, [numbers[path] for path in samples]))
        self.trace = written(LENGTH, ENTRY, period, columns)
        self.listing = b"".join(self._lines())

    @staticmethod
    def _cut(count, path, chance):
        """A path's samples, in a few stretches."""
        path = tuple(path)
        while count:
            some = chance.randint(1, count)
            yield some, path
            count -= some

    def raw(self, path):
        """The end and the addresses of a path, the innermost first."""
        pcs, frame = [], None
        for scope in path[1:]:
            if scope[0] in ("call", "stmt"):
                pcs.append(self._address(tuple(frame), scope))
            else:
                frame = [scope] if scope[0] == "proc" else [*frame, scope]
        return (NO_FDE if path[0][1] else WHOLE), tuple(reversed(pcs))

    def _address(self, frame, place):
        """An address of a frame: a procedure, what is inlined into it there, and a place."""
        start = self.procedures.setdefault(frame[0][1], BEGIN + SIZE * len(self.procedures))
        own = self.places.setdefault(frame[0][1], {})
        return start + 4 * own.setdefault((frame[1:], place), len(own))

    def _lines(self):
        """The listing: procedures without a name, and those of symbols, are no entries of debug information."""
        kinds = {0: [], 1: [], 2: []}
        for procedure, start in self.procedures.items():
            kinds[procedure[0]].append((procedure, start))
        for procedure, start in kinds[0]:
            yield b"proc %s 0x%08x..0x%08x\n" % (self._printed(procedure), start, start + SIZE)
            for (inlined, _), number in self.places[procedure].items():
                for level, (_, called, line) in enumerate(inlined):
                    at = start + 4 * number
                    where = b"0x%08x" % line if isinstance(line, int) else b"%s:%d" % line[2:]
                    words = b"inline %s called at %s" % (self._printed(called), where)
                    yield b"  " * (level + 1) + b"%s 0x%08x..0x%08x\n" % (words, at, at + 4)
        for procedure, start in kinds[1]:
            yield b"symbol %s 0x%08x..0x%08x\n" % (self._printed(procedure), start, start + SIZE)

    @staticmethod
    def _printed(procedure):
        return printed(procedure[2].decode()).encode()

    def _frames(self, path):
        frames = []
        for scope in path:
            if scope[0] == "root":
                frames.append((databases.ROOTS[scope[1]], scope))
            elif scope[0] in ("proc", "inline"):
                name = self._printed(scope[1]).decode()
                # A call that is inlined at two places is one frame.
                frames.append((name, scope) if scope[0] == "proc" else (f"[I] {name}", name))
        return tuple(frames)

    # ---- what is shown of it

    def slices(self, hart):
        """Where each stretch of equal paths begins, where it ends, and its frames. The instruction m is from m - 1
        to m."""
        found, ends = [], [*range(2, len(self.shown[hart]) + 1), None]
        for sample, (frames, following) in enumerate(zip(self.shown[hart], ends), 1):
            end = self.retired[hart] if following is None else following * self.period - 1
            if found and found[-1][2] == frames:
                found[-1] = found[-1][0], end, frames
            else:
                found.append((sample * self.period - 1, end, frames))
        return found

    def at(self, hart, instruction):
        """The frames of the path that a hart shows at an instruction, or nothing."""
        sample = instruction // self.period
        return self.shown[hart][sample - 1] if 0 < sample and instruction <= self.retired[hart] else None

    def procedures_at(self, hart, instruction):
        """The same, of the procedures alone."""
        frames = self.at(hart, instruction)
        return frames and [name for name, which in frames if which[0] == "proc"]
