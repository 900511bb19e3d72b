"""Reads a database and checks its rules, in the order and with the offsets that the profiler answers.

1. the first 8 bytes;
2. every field lies in the file, tags are known, and nothing follows the last field (fields.py);
3. events are 1 to 4 and ascend, in version 2 not retired alone, which is version 1; periods are at least 1; version 3
   has 2 to 16 runs; harts of a run are 1 to 64;
4. procedures and files ascend, and each is used;
5. the nodes are in preorder, siblings ascend, each scope stands where such a scope may stand;
6. the profile plane ascends, and is what its exclusive values give (planes.py);
7. the context plane holds the same values (planes.py).

Each rule is tried over the whole file before the next. Of rules 5 to 7 it is first asked, of whole columns, whether
they hold; where one doesn't, a second and plain reading finds the first place that breaks it.
"""
from array import array
from itertools import compress, islice

from . import by_numpy
from .columns import merged, numbers, packed, picked, spread, whole, widened
from .database import CALL, EVENTS, INLINE, NAMELESS, PROC, ROOT, STMT, Malformed
from .fields import need_context, read_fields
from .planes import begin_planes

MOST_NAME = 4096
MOST_HARTS, MOST_RUNS = 64, 16


def begin(data, version):
    """The database of a version that these bytes are, or Malformed; and what waits until rules 6 and 7 are checked, and
    raises that."""
    database = read_fields(data, version)
    try:
        _check_head(database)
        _check_names(database)
        if not _are_nodes(database):
            _find_broken_node(database)
        return database, begin_planes(database)
    except Malformed:
        # A context plane that is what the samples give is whole. Of any other that is asked first.
        need_context(database)
        raise


# ---- rules 3 and 4: the head and the names


def _check_head(database):
    numbers, before = [event.number for event in database.events], -1
    is_version_1 = database.version == 2 and numbers == [0]
    if database.version > 1 and (not 1 <= len(numbers) <= len(EVENTS) or is_version_1):
        raise Malformed(3, 8)
    for event in database.events:
        if not before < event.number < len(EVENTS):
            raise Malformed(3, event.offset)
        if event.period < 1:
            raise Malformed(3, event.period_offset)
        before = event.number
    if database.version > 2 and not 2 <= len(database.runs) <= MOST_RUNS:
        raise Malformed(3, database.runs_offset)
    for place, harts in enumerate(database.runs):
        if not 1 <= harts <= MOST_HARTS:
            raise Malformed(3, database.runs_offset + 4 * place + (4 if database.version > 2 else 0))


def _check_names(database):
    nodes = database.nodes
    called = set(compress(nodes.operand, nodes.scope.translate(_IS_CALLED)))
    before = (-1, -1)
    for place, entry in enumerate(database.procedures):
        is_nameless = entry.kind == NAMELESS
        if not (
            before < (entry.kind, entry.number)
            and entry.kind <= NAMELESS
            and (not is_nameless or (entry.number, entry.name) == (0, b"<unknown procedure>"))
            and len(entry.name) <= MOST_NAME
            and place in called
        ):
            raise Malformed(4, entry.offset)
        before = (entry.kind, entry.number)
    used = set(nodes.line_file)
    before = (-1, -1)
    for place, entry in enumerate(database.files):
        if not (before < (entry.table, entry.number) and len(entry.name) <= MOST_NAME and place in used):
            raise Malformed(4, entry.offset)
        before = (entry.table, entry.number)


# ---- rule 5: the nodes


def _table(*scopes):
    return bytes(scope in scopes for scope in range(256))


_IS_ROOT, _IS_STMT, _IS_CALLED = _table(ROOT), _table(STMT), _table(PROC, INLINE)
_ARE_OPEN = bytes(255 * (scope != STMT) for scope in range(256))

# Which scopes a scope may stand under.
UNDER = {PROC: (ROOT, CALL), INLINE: (PROC, INLINE), CALL: (PROC, INLINE), STMT: (PROC, INLINE)}
_NOTHING = 5
_ABOVE = {above << 3 | scope for scope, scopes in UNDER.items() for above in scopes} | {_NOTHING << 3 | ROOT}
_SHIFTED = bytes((scope & 7) << 3 for scope in range(256))
# Of scopes that may be siblings: which comes first.
_RANK = bytes(max(scope - INLINE, 0) & 3 for scope in range(256))


def _are_nodes(database):
    """Whether rule 5 holds. Where that isn't told, of more names than keys have room for, the answer is no."""
    nodes = database.nodes
    if not nodes:
        return True
    if by_numpy.is_here(len(nodes)):
        return by_numpy.are_nodes(database, UNDER)
    roots = max(compress(nodes.operand, nodes.scope.translate(_IS_ROOT)), default=0)
    called = max(compress(nodes.operand, nodes.scope.translate(_IS_CALLED)), default=-1)
    return (
        roots <= 1
        and called < len(database.procedures)
        and max(nodes.line_file) < len(database.files)
        and _first_children_follow(nodes)
        and _are_siblings(nodes, _keys(database))
        and _stand_under(nodes)
    )


def _first_children_follow(nodes):
    """Whether the first node has no parent, and each but a statement is the parent of the next one."""
    next_parents, own = whole(packed(nodes.parent)) >> 32, whole(packed(array("I", range(len(nodes)))))
    is_open = whole(spread(nodes.scope.translate(_ARE_OPEN)))
    return nodes.parent[0] == -1 and nodes.scope[-1] == STMT and not (next_parents ^ own) & is_open


def _keys(database):
    """For each node a number, which ascends as siblings do; none where that has more than 64 bits."""
    nodes, of_file = database.nodes, len(database.files).bit_length()
    if of_file + len(database.procedures).bit_length() > 29:
        return None
    words = numbers("I", packed(nodes.line_file))
    file, is_none = whole(packed(words[0::2])), packed(words[1::2])
    # Both are ones where there is no file.
    upper = file ^ whole(is_none) | whole(widened(is_none[0::4].translate(_IS_ONES))) << of_file
    upper |= whole(packed(nodes.operand)) << of_file + 1 | whole(widened(nodes.scope.translate(_RANK))) << 30
    pairs = numbers("I", packed(nodes.line))
    pairs[1::2] = numbers("I", upper.to_bytes(4 * len(nodes), "little"))
    return numbers("Q", packed(pairs))


_IS_ONES = bytes(255) + bytes([1])


def _are_siblings(nodes, keys):
    """Whether the parent of a node behind a statement is above that, and the sibling before it has a lesser key."""
    if keys is None:
        return False
    parent, is_stmt = nodes.parent, nodes.scope.translate(_IS_STMT)
    for before, above in zip(compress(range(len(nodes) - 1), is_stmt), compress(islice(parent, 1, None), is_stmt)):
        key = keys[before + 1]
        while parent[before] != above:
            before = parent[before]
            if before < 0:
                return False
        if keys[before] >= key:
            return False
    return True


def _stand_under(nodes):
    """Whether each scope may stand under its parent's. That of a root, -1, is behind the last."""
    above = bytes(picked(nodes.scope + bytes([_NOTHING]), nodes.parent))
    return set(merged(above.translate(_SHIFTED), nodes.scope)) <= _ABOVE


def _find_broken_node(database):
    """Refuses the first node that breaks rule 5, if one does."""
    nodes = database.nodes
    scope, operand, line_file, line = nodes.scope, nodes.operand, nodes.line_file, nodes.line
    procedures, files = len(database.procedures), len(database.files)
    has_child = bytearray(len(nodes))
    for parent in nodes.parent:
        if 0 <= parent < len(nodes):
            has_child[parent] = 1
    # The open nodes from the root on, each with the order of its last child so far.
    path, last, roots_last = [], [], ()
    for node, parent in enumerate(nodes.parent):
        kind = scope[node]
        while path and path[-1] != parent:
            path.pop()
            last.pop()
        # The scope's order: its variant, then its fields; a row of a line table stands before an address.
        order = (kind, operand[node] if kind <= INLINE else -1, line_file[node] < 0, line_file[node], line[node])
        before = last[-1] if path else roots_last
        if not (
            bool(path) == (parent >= 0)
            and before < order
            and (parent == -1 if kind == ROOT else path and scope[parent] in UNDER[kind])
            and (kind != ROOT or operand[node] <= 1)
            and (kind not in (PROC, INLINE) or operand[node] < procedures)
            and line_file[node] < files
            and (kind == STMT or has_child[node])
        ):
            raise Malformed(5, nodes.offset_of(node))
        if path:
            last[-1] = order
        else:
            roots_last = order
        path.append(node)
        last.append(())
