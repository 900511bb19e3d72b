"""What folded.py and speedscope.py gather of the nodes of a large database, by numpy (by_numpy.py)."""
from .by_numpy import ends, module, viewed
from .database import CALL


def frames_of(nodes, of_scope):
    """Each node's frame, by its scope and its operand; -1 where it is none."""
    np, scope, operand = module(), viewed(nodes.scope), viewed(nodes.operand)
    found = np.full(len(scope), -1)
    for each, frames in of_scope.items():
        nodes_of_scope = np.flatnonzero(scope == each)
        found[nodes_of_scope] = np.array(frames, "q")[operand[nodes_of_scope]]
    return found


def numbered(nodes, with_places):
    """A number for each node that is a frame, the same for those of one; -1 where it is none. Procedures and inlined
    procedures are frames, and with places the rest too."""
    np, scope = module(), viewed(nodes.scope)
    numbers = viewed(nodes.operand).astype("q") << 3 | scope
    if not with_places:
        return np.where(scope < CALL, numbers, -1)
    file, line = viewed(nodes.line_file), viewed(nodes.line)
    places = np.unique(np.stack([scope, file, line], 1)[scope >= CALL], axis=0, return_inverse=True)[1]
    numbers[scope >= CALL] = places << 3 | 4
    return numbers


def renumbered(numbers):
    """The frames of nodes by these numbers, from 0 on in the order in which they come first; and the first node of
    each."""
    np = module()
    nodes = np.flatnonzero(numbers >= 0)
    _, first, own = np.unique(numbers[nodes], return_index=True, return_inverse=True)
    order = np.argsort(first)
    place = np.empty(len(order), "q")
    place[order] = np.arange(len(order))
    frames = np.full(len(numbers), -1)
    frames[nodes] = place[own]
    return frames, nodes[first[order]].tolist()


def files_of(nodes, frames):
    """Each frame with the file of the first line in it."""
    np, file = module(), viewed(nodes.line_file)
    near = nearest(nodes, frames)
    with_file = np.flatnonzero(file >= 0)
    # The line of a node is in what the node lies in.
    own = near[viewed(nodes.parent)[with_file]]
    found, first = np.unique(frames[own], return_index=True)
    return zip(found.tolist(), file[with_file[first]].tolist())


def costs_before(plane):
    """The cost before each of a column's samples, and that of all."""
    np = module()
    return np.append(0, np.cumsum(viewed(plane.value))).tolist()


def without(frames, keeps):
    """The same without the nodes that are left out."""
    return module().where(viewed(keeps), frames, -1)


def nearest(nodes, frames):
    """Of each node the nearest at or above it that has a frame; where there is none, the number behind the last."""
    np, parent = module(), viewed(nodes.parent)
    count = len(parent)
    has_frame = np.append(frames >= 0, True)
    found = np.append(np.where(has_frame[:-1], np.arange(count), parent), count)
    found[found < 0] = count
    rest = np.flatnonzero(~has_frame[found])
    while len(rest):
        found[rest] = found[found[rest]]
        rest = rest[~has_frame[found[rest]]]
    return found


class Stacks:
    """The distinct stacks: of each the stack above it (-1 where there is none) and its last frame. `of` has each node's
    stack. A stack is known by its last frame and the one above it; stacks are in the order in which they come first.
    `nodes` are those that have a frame, and `own` the stack of each of them."""

    def __init__(self, nodes, frames, count):
        np = module()
        near = nearest(nodes, frames)
        self.nodes = np.flatnonzero(frames >= 0)
        # The places of nodes among those with a frame. Behind the last one is that of none.
        place = np.full(len(frames) + 1, len(self.nodes))
        place[self.nodes] = np.arange(len(self.nodes))
        self.node_above = near[viewed(nodes.parent)[self.nodes]]
        above = place[self.node_above]
        found, numbers, number = [-1] * (len(self.nodes) + 1), {}, 0
        for node, (up, frame) in enumerate(zip(above.tolist(), frames[self.nodes].tolist())):
            key = found[up] * count + frame
            stack = numbers.get(key)
            if stack is None:
                stack = numbers[key] = number
                number += 1
            found[node] = stack
        self.above, self.last = np.divmod(np.fromiter(numbers, "q", number), count)
        found = np.array(found)
        self.own, self.of = found[:-1], found[place[near[:-1]]]

    def costs(self, planes):
        """The cost of each stack, of several columns together. Sums are below 2^53."""
        np, count = module(), len(self.above)
        found = np.zeros(count)
        for plane in planes:
            found += np.bincount(self.of[viewed(plane.node)], viewed(plane.value), count)
        return found.astype("q").tolist()


def levels(above):
    """How many stacks are above each."""
    found = []
    for stack in above:
        found.append(found[stack] + 1 if stack >= 0 else 0)
    return found


class Openings:
    """For each column, which frames open and close before which of its samples.

    A frame is open from the first sample below its node up to the last. Of two nodes with one stack it stays open where
    the samples of one follow those of the other."""

    def __init__(self, nodes, stacks):
        np = module()
        self.count, self.stacks = len(nodes), stacks
        self.level = np.array(levels(stacks.above.tolist()))
        self.end = ends(nodes)[stacks.nodes]

    def of(self, plane):
        """The places among the column's samples, whether a frame closes there, and the frame, in order: before each
        sample the frames that close, the innermost first, and then those that open."""
        np = module()
        sampled = np.zeros(self.count + 1, "q")
        sampled[viewed(plane.node).astype("q") + 1] = 1
        before = np.cumsum(sampled)
        start, end = before[self.stacks.nodes], before[self.end]
        has_samples = np.flatnonzero(start < end)
        start, end, stack = start[has_samples], end[has_samples], self.stacks.own[has_samples]
        order = np.argsort(stack * (len(plane.node) + 1) + start)
        start, end, stack = start[order], end[order], stack[order]
        is_first, is_last = np.ones((2, len(stack)), bool)
        is_first[1:] = (stack[1:] != stack[:-1]) | (start[1:] != end[:-1])
        is_last[:-1] = is_first[1:]
        start, end, stack = start[is_first], end[is_last], stack[is_first]
        return self._ordered(start, end, stack)

    def _ordered(self, start, end, stack):
        np, most = module(), int(self.level.max(initial=0)) + 1
        level = self.level[stack]
        place = np.concatenate([end, start])
        order = np.argsort(place * (2 * most) + np.concatenate([most - 1 - level, most + level]))
        closes, frame = np.arange(len(place)) < len(end), self.stacks.last[np.concatenate([stack, stack])]
        return place[order], closes[order], frame[order]
