"""The tree of a profile, its values, and the tables of one event, each counted plainly from the call paths. What paths
and profiles are: databases.py.
"""
from collections import defaultdict
from fractions import Fraction

EVENTS = ("retired", "loads", "stores", "taken")
SCOPES = ("root", "proc", "inline", "call", "stmt")
ROOTS = ("<thread root>", "<partial call paths>")
NAMELESS = (2, 0, b"<unknown procedure>")
TOP_HEADER = f"{'inclusive':>16} {'%':>6} {'frame':>16}  scope"
STATS_HEADER = f"{'profiles':>8} {'sum':>16} {'least':>16} {'greatest':>16} {'squares':>32} {'mean':>24}  scope"
KINDS = ("exclusive", "frame", "inclusive")


UNPRINTED = bytes(0x3F if byte < 32 or byte == 127 else byte for byte in range(256))


def text_of(name):
    """A name as it is printed; bytes that are no UTF-8 come out again where the text is encoded so."""
    return name.translate(UNPRINTED).decode(errors="surrogateescape")


def line_order(line):
    return (1, line) if isinstance(line, int) else (0, line[0], line[1], line[3])


def order(scope):
    """Scopes stand by their kind, then by what they have; a procedure by its kind and number."""
    if scope[0] == "root":
        return 0, scope[1]
    if scope[0] in ("proc", "inline"):
        return SCOPES.index(scope[0]), scope[1][:2], *map(line_order, scope[2:])
    return SCOPES.index(scope[0]), line_order(scope[1])


class Node:
    """`exclusive` has by column the samples that end there."""

    def __init__(self, scope, parent):
        self.scope, self.parent, self.children = scope, parent, {}
        self.exclusive, self.number = {}, None


def child(node, scope):
    if scope not in node.children:
        node.children[scope] = Node(scope, node)
    return node.children[scope]


def count_at(node, column, count):
    node.exclusive[column] = node.exclusive.get(column, 0) + count


def tree(profile):
    """The nodes of a profile in preorder."""
    top = Node(None, None)
    for column, count, path in profile:
        node = top
        for scope in path:
            node = child(node, scope)
        count_at(node, column, count)
    return preorder(top)


def preorder(top):
    nodes, waiting = [], [top]
    while waiting:
        node = waiting.pop()
        if node is not top:
            node.number = len(nodes)
            nodes.append(node)
        children = sorted(node.children.values(), key=lambda child: order(child.scope), reverse=True)
        waiting += children
    return nodes


def values(nodes, columns):
    """For each column the exclusive, frame and inclusive numbers of samples of each node."""
    found = []
    for column in range(columns):
        exclusive = [node.exclusive.get(column, 0) for node in nodes]
        frame, inclusive = exclusive[:], exclusive[:]
        for node in reversed(nodes):
            if node.parent.number is not None:
                inclusive[node.parent.number] += inclusive[node.number]
                if node.scope[0] != "proc":
                    frame[node.parent.number] += frame[node.number]
        found.append((exclusive, frame, inclusive))
    return found


def of_event(profile, events, place):
    """The profile of the event at a place: its columns are harts."""
    count = len(events)
    return [(column // count, samples, path) for column, samples, path in profile if column % count == place]


# ---- the tables of one event, as docs/FORMATS.md and HPCToolkit's manual tell them


def place(line):
    return f"0x{line:08x}" if isinstance(line, int) else f"{text_of(line[2])}:{line[3]}"


def label(scope):
    if scope[0] == "root":
        return ROOTS[scope[1]]
    if scope[0] == "proc":
        return text_of(scope[1][2])
    if scope[0] == "inline":
        return f"[I] {text_of(scope[1][2])} called at {place(scope[2])}"
    return ("call at " if scope[0] == "call" else "") + place(scope[1])


def row(level, first, second, total, name):
    tenths = first * 1000 // total
    return f"{first:16} {f'{tenths // 10}.{tenths % 10}':>6} {second:16}  {'  ' * level}{name}"


def top_down(profile, period):
    """Rows of all nodes: inclusive, share and frame value."""
    total = sum(count for _, count, _ in profile) * period
    nodes = tree([(0, count, path) for _, count, path in profile])
    if not nodes:
        return []
    _, frame, inclusive = values(nodes, 1)[0]
    levels = {}
    for node in nodes:
        levels[node.number] = 0 if node.parent.number is None else levels[node.parent.number] + 1
    return [
        row(levels[node.number], inclusive[node.number] * period, frame[node.number] * period, total, label(node.scope))
        for node in nodes
    ]


def stats(profile, period, harts, kind):
    """Rows of all nodes with values of a kind: in how many harts, their sum, least, greatest, squares and mean."""
    nodes, level, rows = tree(profile), {}, []
    columns = [kinds[KINDS.index(kind)] for kinds in values(nodes, harts)]
    for node in nodes:
        level[node.number] = 0 if node.parent.number is None else level[node.parent.number] + 1
        found = [column[node.number] * period for column in columns if column[node.number]]
        if found:
            mean = Fraction(sum(found), len(found))
            figures = f"{len(found):8} {sum(found):16} {min(found):16} {max(found):16} {sum(n * n for n in found):32}"
            mean = f"{mean.numerator}/{mean.denominator}"
            rows.append(f"{figures} {mean:>24}  {'  ' * level[node.number]}{label(node.scope)}")
    return rows


def callers(profile, period, depth):
    """Rows of all chains of up to depth + 1 procedures, each with its callers below."""
    total = sum(count for _, count, _ in profile) * period
    inclusive, exclusive = defaultdict(int), defaultdict(int)
    for _, count, path in profile:
        procedures = [scope[1] for scope in path if scope[0] == "proc"]
        runs = set()
        for end in range(len(procedures)):
            for length in range(1, min(end + 1, depth + 1) + 1):
                runs.add(tuple(reversed(procedures[end + 1 - length : end + 1])))
        for run in runs:
            inclusive[run] += count
        for length in range(1, min(len(procedures), depth + 1) + 1):
            exclusive[tuple(reversed(procedures[-length:]))] += count
    rows = []

    def below(chain):
        found = [run for run in inclusive if run[:-1] == chain]
        for run in sorted(found, key=lambda run: (-inclusive[run], run[-1][:2])):
            name = ("<- " if chain else "") + text_of(run[-1][2])
            rows.append(row(len(chain), inclusive[run] * period, exclusive[run] * period, total, name))
            below(run)

    below(())
    return rows


def callees(profile, period, depth):
    """Rows of all chains of up to depth + 1 procedures, each with what it calls below."""
    total = sum(count for _, count, _ in profile) * period
    inclusive, exclusive = defaultdict(int), defaultdict(int)
    for _, count, path in profile:
        procedures = tuple(scope[1] for scope in path if scope[0] == "proc")
        for length in range(1, depth + 2):
            starts = range(len(procedures) - length + 1)
            for chain in {procedures[start : start + length] for start in starts}:
                inclusive[chain] += count
            if starts:
                exclusive[procedures[-length:]] += count
    rows = []

    def below(chain):
        found = [run for run in inclusive if run[:-1] == chain]
        for run in sorted(found, key=lambda run: (-inclusive[run], run[-1][:2])):
            name = ("-> " if chain else "") + text_of(run[-1][2])
            rows.append(row(len(chain), inclusive[run] * period, exclusive[run] * period, total, name))
            below(run)

    below(())
    return rows


def without(path, is_hidden):
    """A path without the frames of hidden procedures: what lies in one belongs to the call that led to it, and of a
    hidden inlined procedure to the place where it was inlined."""
    found, place = [], None
    for scope in path:
        if scope[0] in ("proc", "inline") and is_hidden(scope[1]):
            place = "call" if scope[0] == "proc" else place or scope[2]
        elif scope[0] in ("root", "proc"):
            found.append(scope)
            place = None
        elif scope[0] == "inline":
            found.append(scope if place in (None, "call") else ("inline", scope[1], place))
            place = None
        elif place is None:
            found.append(scope)
        elif place != "call":
            found.append((scope[0], place))
    return tuple(found)


def frames(path):
    """A path's frames: the procedure, and the line of its call or statement."""
    procedure = None
    for scope in path:
        if scope[0] == "proc":
            procedure = scope[1]
        elif scope[0] in ("call", "stmt"):
            yield procedure, scope[1]


def flat(profile, period):
    """Rows of files, procedures and lines."""
    total = sum(count for _, count, _ in profile) * period
    inclusive, exclusive, names = defaultdict(int), defaultdict(int), {}
    for _, count, path in profile:
        found = []
        for procedure, line in frames(path):
            file = b"<unknown file>" if isinstance(line, int) else line[2]
            number = (1, line) if isinstance(line, int) else (0, line[3])
            keys = [(file,), (file, procedure[:2]), (file, procedure[:2], number)]
            found.append(keys)
            written = f"0x{line:08x}" if isinstance(line, int) else f"line {line[3]}"
            names.update(zip(keys, (text_of(file), text_of(procedure[2]), written)))
        for key in {key for keys in found for key in keys}:
            inclusive[key] += count
        for key in found[-1]:
            exclusive[key] += count
    rows = []

    def below(above):
        for key in sorted((key for key in inclusive if key[:-1] == above), key=lambda key: (-inclusive[key], key[-1])):
            rows.append(row(len(above), inclusive[key] * period, exclusive[key] * period, total, names[key]))
            below(key)

    below(())
    return rows
