"""The timeline of a page: for each hart, in the order of its samples, the nodes of the database that these have.

A path of a trace is found in the database by names: its root, its procedures and its inlined procedures, the outermost
first. A trace has no places of calls, so of nodes that differ in these alone, or in procedures of one name, the first
in the database is meant.
"""
from array import array
from itertools import compress

from .columns import packed
from .contexts import readable
from .database import CALL, INLINE, PROC, ROOT
from .measurement import WHOLE

_IS_OPEN = bytes(scope < CALL for scope in range(256))


class NoPath(Exception):
    """The database has no such path."""


class Timeline:
    """Of the harts that are wanted: their instructions, and their stretches of samples as two columns, each stretch's
    node, and its number of samples."""

    def __init__(self, trace, listing, database, harts):
        self.period, self.harts = trace.period, harts
        self.retired = [trace.harts[hart].retired for hart in harts]
        self._listing, self._known = listing, {}
        self._number(database)
        self.columns = [self._columns(trace.harts[hart]) for hart in harts]

    def _number(self, database):
        """Groups the nodes that are alike by names: each group is known by its first node, and found by the group
        above, its scope and its name."""
        nodes, self._groups, self._roots, names = database.nodes, {}, {}, {}
        self._names = names
        name_of = [names.setdefault(readable(each.name), len(names)) for each in database.procedures]
        group = array("i", nodes.parent)
        rows = zip(range(len(nodes)), nodes.parent, nodes.scope, nodes.operand)
        scopes, of = nodes.scope, self._groups
        for node, parent, scope, operand in compress(rows, scopes.translate(_IS_OPEN)):
            if scope == ROOT:
                group[node] = self._roots.setdefault(operand, node)
                continue
            # Above a procedure is a call, or a root; a call is in the group of what it lies in.
            above = parent if scopes[parent] < CALL else nodes.parent[parent]
            group[node] = of.setdefault((group[above], scope, name_of[operand]), node)

    def _below(self, group, pc):
        """The group of a frame below another."""
        name, _, inlined = self._listing.at(pc)
        for scope, called in ((PROC, name), *((INLINE, each) for each in inlined)):
            group = self._groups.get((group, scope, self._names.get(called)))
            if group is None:
                raise NoPath(pc)
        return group

    def _node(self, end, pcs):
        group, known = self._roots.get(int(end != WHOLE)), self._known
        if group is None:
            raise NoPath(pcs[-1])
        for pc in reversed(pcs):
            below = known.get((group, pc))
            if below is None:
                below = known[group, pc] = self._below(group, pc)
            group = below
        return group

    def _columns(self, hart):
        """Neighbours with one node are one stretch."""
        node_of = [self._node(end, pcs) for end, pcs in hart.paths]
        nodes, counts, last = array("I"), array("I"), -1
        for place, samples in hart.stretches():
            node = node_of[place]
            if node == last:
                counts[-1] += samples
                continue
            nodes.append(node)
            counts.append(samples)
            last = node
        return nodes, counts

    def facts(self):
        """What the page is told beside the columns. Numbers of instructions are texts, since they may have 64 bits."""
        return {"period": self.period, "retired": [str(retired) for retired in self.retired],
                "stretches": [len(nodes) for nodes, _ in self.columns]}

    def packed(self):
        return [packed(column) for both in self.columns for column in both]
