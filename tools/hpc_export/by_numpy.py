"""What fields.py, rules.py and contexts.py do with whole columns, by numpy: where that is installed, and a database is
large. planes_by_numpy.py has the planes, stacks_by_numpy.py and calls_by_numpy.py what formats gather.

Both give the same. Here too it is only asked whether a rule holds; the plain reading finds the place that breaks it.
"""
from array import array

from .database import INLINE, PROC, ROOT, STMT, Nodes

# From so many nodes on numpy takes less time than it takes to load.
LEAST = 1 << 16


def is_here(count):
    """Whether numpy is to read so many nodes."""
    return count >= LEAST and module() is not None


def module():
    """The module, where it can be loaded. It takes a while, so that small databases do without it."""
    try:
        import numpy
    except ImportError:
        return None
    return numpy


def column_of(kind, values):
    """A column as an array of this kind."""
    found = array(kind)
    found.frombytes(module().ascontiguousarray(values, kind).view("u1"))
    return found


def viewed(column):
    """A column, an array or bytes, as numpy has it, without a copy."""
    return module().asarray(memoryview(column))


# ---- the nodes' fields

# So many places are in a block, and so many words a node has at most.
_BLOCK = 1024
_LONGEST = 6
# So many bytes a node has at least.
_SHORTEST = 12
# What a word that is none of the tags counts as, and so many words count as different.
_NO_TAG = 5
_TAGS = _NO_TAG + 1


def _length(scope, second, third):
    """How many words a node has, by the three behind its first: 0 where a tag is unknown."""
    if scope < INLINE:
        return 3
    tag = third if scope == INLINE else second
    return (6 if scope == INLINE else 5) - tag if scope < _NO_TAG and tag < 2 else 0


_LENGTHS = bytes(_length(*divmod(code // _TAGS, _TAGS), code % _TAGS) for code in range(_TAGS**3)).ljust(256, b"\0")


def nodes_of(data, start, count):
    """So many nodes that begin at this offset, and the offset behind them; None where one isn't whole or has an unknown
    tag."""
    np = module()
    if len(data) - start < _SHORTEST * count:
        return None
    # A copy, whose words lie where numpy reads them fast.
    words = np.frombuffer(data[start : start + 4 * min(_LONGEST * count, (len(data) - start) // 4)], "<u4")
    tags = np.full(len(words) + 3, _NO_TAG, "u1")
    np.minimum(words, _NO_TAG, out=tags[: len(words)], casting="unsafe")
    codes = (tags[1:-2] * _TAGS + tags[2:-1]) * _TAGS + tags[3:]
    lengths = np.frombuffer(codes.tobytes().translate(_LENGTHS), "u1")
    starts = _starts(lengths)[:count]
    ends, scope = starts + lengths[starts], tags[starts + 1]
    if len(starts) < count or ends[-1] > len(words) or (ends[:-1] != starts[1:]).any():
        return None
    has_line = scope >= INLINE
    # A line has one word more where it has a file.
    has_file = has_line & (ends - starts == np.where(scope == INLINE, 6, 5))
    line_file = np.where(has_file, words[ends - 2], -1)
    line = np.where(has_line, words[ends - 1], -1)
    parent, operand = words[starts].view("<i4"), words[starts + 2]
    lines = column_of("q", line_file), column_of("q", line)
    nodes = Nodes(column_of("i", parent), scope.tobytes(), column_of("I", operand), *lines, start)
    return nodes, start + 4 * int(ends[-1])


def _starts(lengths):
    """The places where nodes begin, from place 0 on; behind a place where none has a length they mean nothing.

    In each block of places a way is gone from its first place on, in all blocks at once; it goes one place on where
    nothing begins. Where the way from place 0 comes into a block, it soon meets that one, and is the same from there
    on."""
    np = module()
    blocks, size = len(lengths) // _BLOCK + 1, _BLOCK + _LONGEST
    # Each block has a few places more: there its way ends.
    steps = np.zeros((blocks, size), "u1")
    whole = blocks - 1
    steps[:whole, :_BLOCK] = lengths[: whole * _BLOCK].reshape(whole, _BLOCK)
    steps[whole, : len(lengths) % _BLOCK] = lengths[whole * _BLOCK :]
    goes = np.maximum(steps, 1)
    goes[:, _BLOCK:] = 0
    is_start, at, base = np.zeros(steps.shape, bool), np.arange(blocks) * size, np.arange(blocks) * size
    flat_goes, flat_starts = goes.ravel(), is_start.ravel()
    while True:
        step = flat_goes[at]
        if not step.any():
            break
        flat_starts[at] = True
        at += step
    is_start &= steps > 0
    own, meets = _meetings(steps.tobytes(), is_start.tobytes(), (at - base).tolist(), size)
    is_start &= np.arange(size) >= np.array(meets)[:, None]
    flat_starts[own] = True
    return np.flatnonzero(is_start[:, :_BLOCK])


def _meetings(steps, is_start, leaves, size):
    """The places of the way from place 0 before it meets a block's, and for each block the place in it where it does.
    `leaves` has the place where each block's way ends."""
    own, meets, entry = [], [], 0
    for block, leave in enumerate(leaves):
        at = entry + block * size
        while steps[at] and not is_start[at]:
            own.append(at)
            at += steps[at]
        place = at - block * size
        is_met = is_start[at]
        meets.append(place if is_met else size)
        entry = (leave if is_met else place) - _BLOCK
        if entry < 0:
            # A node without a length.
            return own, meets + [size] * (len(leaves) - len(meets))
    return own, meets


# ---- rule 5

# By the scope above and the scope itself whether it may stand there. Above a root is nothing.
_NOTHING = 5


def are_nodes(database, under):
    """Whether rule 5 holds. Where that isn't told, of more names than keys have room for, the answer is no. `under` has
    for each scope those that it may stand under."""
    np, nodes = module(), database.nodes
    parent, scope, operand, line_file = map(viewed, (nodes.parent, nodes.scope, nodes.operand, nodes.line_file))
    is_called, is_root = (scope == PROC) | (scope == INLINE), scope == ROOT
    if (operand[is_called] >= len(database.procedures)).any() or (operand[is_root] > 1).any():
        return False
    own = np.arange(len(parent))
    if line_file.max() >= len(database.files) or (parent < -1).any() or (parent >= own).any():
        return False
    is_allowed = np.zeros((_NOTHING + 1, STMT + 1), bool)
    is_allowed[_NOTHING, ROOT] = True
    for each, above in under.items():
        is_allowed[list(above), each] = True
    # That of a root, -1, is behind the last.
    above = np.append(scope, np.uint8(_NOTHING))[parent]
    if not is_allowed[above, scope].all() or scope[-1] != STMT:
        return False
    # Each but a statement is the parent of the next one.
    if ((parent[1:] != own[:-1]) & (scope[:-1] != STMT)).any():
        return False
    keys = _keys(database)
    return keys is not None and _are_siblings(nodes, scope, keys)


def _keys(database):
    """For each node a number, which ascends as siblings do; none where that has more than 64 bits."""
    np, nodes, of_file = module(), database.nodes, len(database.files).bit_length()
    if of_file + len(database.procedures).bit_length() > 29:
        return None
    scope, operand, line_file, line = map(viewed, (nodes.scope, nodes.operand, nodes.line_file, nodes.line))
    rank = np.maximum(scope, INLINE).astype("u8") - np.uint64(INLINE)
    upper = rank << np.uint64(30) | operand.astype("u8") << np.uint64(of_file + 1)
    upper |= (line_file < 0).astype("u8") << np.uint64(of_file) | np.maximum(line_file, 0).astype("u8")
    return upper << np.uint64(32) | line.astype("u8") & np.uint64(0xFFFFFFFF)


def _are_siblings(nodes, scope, keys):
    """Whether the nodes are in preorder, and the keys of siblings ascend. Each but a statement is followed by its first
    child, so they are in preorder where nothing lies below a statement."""
    np = module()
    before, after = _siblings(viewed(nodes.parent))
    if not (keys[before] < keys[after]).all():
        return False
    statements = np.flatnonzero(scope == STMT)
    return bool((ends(nodes)[statements] == statements + 1).all())


def _siblings(parent):
    """Each node that is not the first below its parent, behind the sibling before it."""
    np = module()
    after = np.flatnonzero(parent[1:] != np.arange(len(parent) - 1)) + 1
    after = after[np.argsort(parent[after], kind="stable")]
    above = parent[after]
    is_second = np.append(True, above[1:] != above[:-1])[: len(after)]
    before = np.append(0, after[:-1])[: len(after)]
    # The first one is right behind the parent.
    return np.where(is_second, above + 1, before), after


def ends(nodes):
    """For each node the first one behind all that lie below it: the next sibling, or what is so for the node above."""
    if nodes.end is None:
        np, parent = module(), viewed(nodes.parent)
        count = len(parent)
        before, after = _siblings(parent)
        following = np.full(count + 1, -1)
        following[before] = after
        following[count] = count
        # Those that are last below their parents go up until one is not; the last one is above the roots.
        last = np.flatnonzero(following < 0)
        up = np.arange(count + 1)
        up[last] = np.where(parent[last] < 0, count, parent[last])
        while len(last):
            found = up[up[last]]
            is_moved = found != up[last]
            up[last] = found
            last = last[is_moved]
        nodes.end = following[up[:count]]
    return nodes.end


def owners(nodes):
    """The procedure or root that each node is, or lies in."""
    np, parent, scope = module(), viewed(nodes.parent), viewed(nodes.scope)
    is_own = scope <= PROC
    found = np.where(is_own, np.arange(len(parent)), parent)
    rest = np.flatnonzero(~is_own[found])
    while len(rest):
        found[rest] = found[found[rest]]
        rest = rest[~is_own[found[rest]]]
    return found


# ---- values


def exclusive(planes, count):
    """Each node's exclusive value, of several columns together. Values are below 2^53, and so are their sums."""
    np = module()
    return sum(np.bincount(viewed(plane.node), viewed(plane.value), count) for plane in planes).astype("q")


def inclusive(values, nodes):
    """Each node's inclusive value, by the exclusive ones."""
    np = module()
    sums = np.append(0, np.cumsum(values))
    return sums[ends(nodes)] - sums[:-1]
