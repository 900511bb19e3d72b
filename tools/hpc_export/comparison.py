"""Two databases compared, scope by scope, also where they are of two builds of one program.

Values are matched by call path of names: the names of a path's root, procedures and inlined procedures, the outermost
first. Places of calls and statements are left out, since another build has others, and so are the numbers of
procedures; scopes that are alike then are put together. What is in one database alone has the value 0 in the other.
"""
from array import array
from dataclasses import dataclass, replace
from typing import List

from .contexts import Shown
from .database import CALL, NAMELESS, ROOT, Database, Event, Nodes, Plane, Procedure


@dataclass
class Before:
    """The samples of one event, at the nodes of the comparison."""

    period: int
    node: array
    samples: array


@dataclass
class Base:
    """The database before, its title, and for each event that both have what is shown; and for the page the planes."""

    database: Database
    title: str
    shown: List[Shown]
    planes: List[Before] = None


class _Names:
    """The tree of names, of one database after the other."""

    def __init__(self):
        self.known, self.parent, self.what = {}, [], []

    def node(self, parent, what):
        found = self.known.setdefault((parent, what), len(self.what))
        if found == len(self.what):
            self.parent.append(parent)
            self.what.append(what)
        return found

    def nodes_of(self, database):
        """For each node of a database that of the names, and at last the one above the roots."""
        nodes, found = database.nodes, [-1] * (len(database.nodes) + 1)
        names = [procedure.name for procedure in database.procedures]
        for node, (parent, scope, operand) in enumerate(zip(nodes.parent, nodes.scope, nodes.operand)):
            above = found[parent]
            found[node] = above if scope >= CALL else self.node(above, (scope, operand if scope == ROOT else names[operand]))
        return found

    def preorder(self):
        """The nodes, siblings by their scope and name."""
        below = [[] for _ in range(len(self.what) + 1)]
        for node, parent in enumerate(self.parent):
            below[parent].append(node)
        order, waiting = [], below[-1][:]
        waiting.sort(key=self.what.__getitem__, reverse=True)
        while waiting:
            node = waiting.pop()
            order.append(node)
            waiting += sorted(below[node], key=self.what.__getitem__, reverse=True)
        return order


def compared(database, options):
    """The database of names, of which each event has one column, and the options with the planes before."""
    names, base = _Names(), options.base
    after, before = names.nodes_of(database), names.nodes_of(base.database)
    order = names.preorder()
    number = [0] * (len(order) + 1)
    for place, node in enumerate(order):
        number[node] = place
    parents = array("i", [number[names.parent[node]] if names.parent[node] >= 0 else -1 for node in order])
    called = sorted({name for scope, name in names.what if scope != ROOT})
    place_of = {name: place for place, name in enumerate(called)}
    what = [names.what[node] for node in order]
    nodes = Nodes(
        parents,
        bytes(scope for scope, _ in what),
        array("I", [name if scope == ROOT else place_of[name] for scope, name in what]),
        array("q", [-1]) * len(order),
        array("q", [0]) * len(order),
        0,
    )
    planes = [_plane(database, shown, after, number) for shown in options.every]
    joined = Database(
        2,
        [Event(shown.event(database).number, plane.period, 0, 0) for shown, plane in zip(options.every, planes)],
        [1],
        0,
        [Procedure(NAMELESS, place, name, 0) for place, name in enumerate(called)],
        [],
        nodes,
        [Plane(0, b"", plane.node, array("Q"), plane.samples) for plane in planes],
        None,
    )
    old = [_plane(base.database, shown, before, number) for shown in base.shown]
    place = options.every.index(options.shown)
    return joined, replace(options, shown=Shown([0], place), base=replace(base, planes=old), causes=[])


def _plane(database, shown, node_of, number):
    """The samples of an event in the harts that are shown, added up at the nodes of names."""
    period, sums = shown.event(database).period, {}
    for node, value in shown.sampled(database):
        at = number[node_of[node]]
        sums[at] = sums.get(at, 0) + value // period
    nodes = sorted(sums)
    return Before(period, array("I", nodes), array("I", map(sums.__getitem__, nodes)))
