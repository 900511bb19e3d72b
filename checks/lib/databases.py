"""Databases for tests, written from docs/FORMATS.md; the profiles that they are of, and their tables, counted plainly
(counted_tables.py).

A path is a tuple of scopes, outermost first:

    ("root", KIND)  ("proc", PROC)  ("inline", PROC, LINE)  ("call", LINE)  ("stmt", LINE)

with a PROC (kind, number, name) and a LINE either an address or (table, file, file's name, line). A profile is a list
of (hart, number of samples, path); one of several events a list of (column, number of samples, path). Events are a list
of (number, period), and the column of a hart and an event is the hart times their number, and the event's place in the
list. The harts of several runs are numbered run by run; runs are a list of the harts of each.
"""
import itertools
import random
import struct

from counted_tables import (  # noqa: F401, the names by which checks call them
    EVENTS, KINDS, NAMELESS, ROOTS, SCOPES, STATS_HEADER, TOP_HEADER, Node, callees, callers, child, count_at, flat,
    frames, label, of_event, order, place, preorder, row, stats, top_down, tree, values, without,
)


def database(profile, period, harts):
    """The bytes of version 1."""
    return written(tree(profile), retired_every(period), harts)


def events_database(profile, events, harts):
    """The bytes of version 3 where the harts are a list of two runs or more, else of version 1 where retired is the only
    event, else of version 2."""
    return written(tree(profile), events, harts)


def runs_database(profile, events, runs):
    """The bytes of version 3, or of the other versions where there is one run."""
    return written(tree(profile), events, runs)


def retired_every(period):
    return [(0, period)]


def head(events, runs):
    """The bytes before the number of procedures."""
    if len(runs) == 1 and events[:-1] == [] and events[0][0] == 0:
        return struct.pack("<8s2I", b"HPCPROF1", events[0][1], *runs)
    pairs = [word for event in events for word in event]
    words = [len(events), *pairs, *([len(runs)] if len(runs) > 1 else []), *runs]
    return struct.pack(f"<8s{len(words)}I", b"HPCPROF3" if len(runs) > 1 else b"HPCPROF2", *words)


def written(nodes, events, harts):
    """The bytes of a tree. `harts` is their number in the one run, or the list of runs."""
    runs = [harts] if isinstance(harts, int) else harts
    harts = sum(runs)
    procedures = sorted({node.scope[1] for node in nodes if node.scope[0] in ("proc", "inline")})
    lines = [node.scope[-1] for node in nodes if node.scope[0] in ("inline", "call", "stmt")]
    files = sorted({line[:3] for line in lines if not isinstance(line, int)})
    place_of = {entry: place for place, entry in enumerate(procedures)}
    file_of = {entry: place for place, entry in enumerate(files)}
    parts = [head(events, runs), struct.pack("<3I", len(procedures), len(files), len(nodes))]
    for entry in procedures + files:
        parts.append(struct.pack("<3I", *entry[:2], len(entry[2])) + entry[2])
    for node in nodes:
        parent = node.parent.number
        words = [0xFFFFFFFF if parent is None else parent, SCOPES.index(node.scope[0])]
        if node.scope[0] == "root":
            words.append(node.scope[1])
        if node.scope[0] in ("proc", "inline"):
            words.append(place_of[node.scope[1]])
        if node.scope[0] in ("inline", "call", "stmt"):
            line = node.scope[-1]
            words += [1, line] if isinstance(line, int) else [0, file_of[line[:3]], line[3]]
        parts.append(struct.pack(f"<{len(words)}I", *words))
    columns = harts * len(events)
    planes, periods = values(nodes, columns), [period for _, period in events] * harts
    for kinds, period in zip(planes, periods):
        entries = [
            struct.pack("<IIQ", node, kind, kinds[kind][node] * period)
            for node, kind in itertools.product(range(len(nodes)), range(3))
            if kinds[kind][node]
        ]
        parts += [struct.pack("<I", len(entries)), *entries]
    for node in range(len(nodes)):
        entries = [
            struct.pack("<IIQ", kind, column, planes[column][kind][node] * periods[column])
            for kind, column in itertools.product(range(3), range(columns))
            if planes[column][kind][node]
        ]
        parts += [struct.pack("<I", len(entries)), *entries]
    return b"".join(parts)


# ---- profiles

A_C = (0, 0, b"/s/a.c")


def at(line, file=A_C):
    return (*file, line)


def straight():
    """examples/straight: one procedure without a name, four statements."""
    return [(0, 1, (("root", 0), ("proc", NAMELESS), ("stmt", pc))) for pc in (0x10010, 0x10024, 0x10038, 0x1004C)]


def inlined():
    """Inlined code in two pieces, two levels, some of it without lines: samples at each second of 20 instructions."""
    main, outer, inner = (0, 0x1D, b"main"), (0, 0x19, b"outer"), (0, 0x11, b"inner")
    head = ("root", 0), ("proc", main)
    in_outer = *head, ("inline", outer, at(3))
    in_inner = *in_outer, ("inline", inner, at(11))
    ends = [(in_inner, 0x10024), (in_outer, at(8)), (in_outer, 0x1002C), (head, at(7)), (head, at(8))]
    ends += [(head, pc) for pc in (0x1001C, 0x10034, 0x1003C, 0x10044, 0x1004C)]
    return [(0, 1, (*path, ("stmt", line))) for path, line in ends]


def recursive():
    """A procedure that calls itself on two harts, through an inlined one of another file, with a partial path and names
    that formats must take care of."""
    list_h, odd = (0, 3, b"/s/list.h"), (7, 1, b"/s/odd;name </script>.c")
    start, walk, visit = (1, 0x10000, b"_start"), (0, 40, b"walk"), (0, 90, b"visit<int; \"x\">")
    nameless, each = NAMELESS, (0, 60, b"each\x07")
    base = ("root", 0), ("proc", start), ("call", 0x10008), ("proc", walk)
    step = ("inline", each, at(12)), ("call", at(5, list_h)), ("proc", walk)
    profile = []
    for depth in range(6):
        path = base + step * depth
        profile.append((depth % 2, depth + 1, (*path, ("stmt", at(14)))))
        profile.append((1, 2, (*path, ("inline", each, at(12)), ("stmt", at(6, list_h)))))
        profile.append((0, 3, (*path, ("call", at(20)), ("proc", visit), ("stmt", at(31, odd)))))
        profile.append((1, 1, (*path, ("call", at(21)), ("proc", visit), ("stmt", at(31, odd)))))
    profile.append((0, 4, (("root", 1), ("proc", visit), ("stmt", at(33, odd)))))
    profile.append((1, 1, (("root", 1), ("proc", nameless), ("stmt", 0x10400))))
    return profile


def deep(levels):
    """One path of so many calls, with a sample at each level."""
    profile, path = [], (("root", 0),)
    for level in range(levels):
        path = *path, ("proc", (1, 0x10000 + 16 * (level % 7), b"f%d" % (level % 7)))
        profile.append((level % 2, 1, (*path, ("stmt", 0x20000 + level))))
        path = *path, ("call", 0x10004)
    return profile


def large(most, harts, seed=1):
    """The nodes of a large tree, most of them or a few more: a walk that calls and returns, with samples on its way.
    Some of the procedures are inlined, and paths are up to some 1,500 nodes long."""
    draw, top = random.Random(seed), Node(None, None)
    files = [(0, number, b"/src/file%d.c" % number) for number in range(40)]
    procedures = [(0, 100 + 16 * number, b"procedure_%d" % number) for number in range(600)]
    root = child(top, ("root", 0))
    path, count = [child(root, ("proc", procedures[0]))], 3
    while count < most:
        node, file = path[-1], files[draw.randrange(40)]
        step = draw.random()
        if step < 0.5:
            count_at(child(node, ("stmt", (*file, draw.randrange(1, 3000)))), draw.randrange(harts), 1)
            count += 1
        elif step < 0.58 and node.scope[0] == "proc":
            path.append(child(node, ("inline", draw.choice(procedures), (*file, draw.randrange(1, 3000)))))
            count_at(child(path[-1], ("stmt", (*file, 1))), draw.randrange(harts), 1)
            count += 2
        elif step < 0.745 and len(path) < 750:
            call = child(node, ("call", (*file, draw.randrange(1, 3000))))
            path.append(child(call, ("proc", draw.choice(procedures))))
            count_at(child(path[-1], ("stmt", (*file, 2))), draw.randrange(harts), 1)
            count += 3
        elif len(path) > 1:
            path.pop()
    return preorder(top)


def small_events():
    """Two harts and two events: samples of both at one statement, of one at another, and a column without samples."""
    base = ("root", 0), ("proc", NAMELESS)
    return [(0, 1, (*base, ("stmt", 0x10010))), (1, 2, (*base, ("stmt", 0x10010))), (3, 1, (*base, ("stmt", 0x10024)))]


def recursive_events():
    """The recursion with three events: each third of the samples is another one's."""
    return [(3 * hart + place % 3, count, path) for place, (hart, count, path) in enumerate(recursive())]


PROFILES = {  # name: profile, period, harts
    "straight": (straight(), 5, 1),
    "inlined": (inlined(), 2, 1),
    "recursive": (recursive(), 97, 2),
    "deep": (deep(600), 11, 2),
    "empty": ([], 21, 1),
}

EVENT_PROFILES = {  # name: profile, events, harts
    "small events": (small_events(), [(0, 5), (3, 2)], 2),
    "recursive events": (recursive_events(), [(1, 97), (2, 1), (3, 4294967295)], 2),
    "stores alone": (inlined(), [(2, 3)], 1),
    "all events, none sampled": ([], [(0, 21), (1, 22), (2, 23), (3, 24)], 64),
    "all events of 64 harts": (
        [(column, 1 + column % 5, path) for column in range(256) for _, _, path in inlined()[column % 3 :: 4]],
        [(0, 7), (1, 6), (2, 5), (3, 4)],
        64,
    ),
}


def small_runs():
    """Two runs, of two harts and of one: samples of two of these at one statement, and a hart without samples."""
    base = ("root", 0), ("proc", NAMELESS)
    return [(0, 1, (*base, ("stmt", 0x10010))), (2, 2, (*base, ("stmt", 0x10010))), (2, 1, (*base, ("stmt", 0x10024)))]


RUN_PROFILES = {  # name: profile, events, the harts of each run
    "small runs": (small_runs(), [(0, 5)], [2, 1]),
    "a run twice": (straight() + [(1, count, path) for _, count, path in straight()], [(0, 5)], [1, 1]),
    "recursive runs": (
        [(3 * (place % 4) + place % 3, count, path) for place, (_, count, path) in enumerate(recursive())],
        [(1, 97), (2, 1), (3, 4294967295)],
        [1, 2, 1],
    ),
    "three runs, none sampled": ([], [(0, 21), (3, 24)], [64, 1, 2]),
    "16 runs": (
        [(hart, 1 + hart % 7, path) for hart in range(136) for _, _, path in inlined()[hart % 3 :: 3]],
        [(0, 7)],
        list(range(1, 17)),
    ),
    "all events of 16 runs of 64 harts": (
        [(column, 1 + column % 3, path) for column in range(0, 4096, 5) for _, _, path in inlined()[column % 3 :: 5]],
        [(0, 7), (1, 6), (2, 5), (3, 4)],
        [64] * 16,
    ),
}
