"""Rules 6 and 7 of a database with so many columns that most nodes have values in few of them: what the exclusive values
of each column give is found among the nodes that it has, and is compared with both planes.
"""
import struct

from .database import EXCLUSIVE, FRAME, INCLUSIVE, PROC, STMT


def values(database, column):
    """The entries that a column's exclusive values give: node, kind and value, in their order."""
    nodes, plane = database.nodes, database.planes[column]
    inclusive, frame = dict(zip(plane.node, plane.value)), dict(zip(plane.node, plane.value))
    for node in plane.node:
        node = nodes.parent[node]
        while node >= 0 and node not in inclusive:
            inclusive[node] = frame[node] = 0
            node = nodes.parent[node]
    # A child's number is above its parent's.
    for node in sorted(inclusive, reverse=True):
        parent = nodes.parent[node]
        if parent >= 0:
            inclusive[parent] += inclusive[node]
            if nodes.scope[node] != PROC:
                frame[parent] += frame[node]
    exclusive = set(plane.node)
    for node in sorted(inclusive):
        if node in exclusive:
            yield node, EXCLUSIVE, inclusive[node]
        if frame[node]:
            yield node, FRAME, frame[node]
        yield node, INCLUSIVE, inclusive[node]


def is_profile(database):
    """Whether the profile plane is what its exclusive values give."""
    entry = struct.Struct("<IIQ")
    return all(
        b"".join(entry.pack(*each) for each in values(database, column)) == plane.data
        for column, plane in enumerate(database.planes)
    )


def parts(database):
    """The part of the context plane of each node."""
    entry = struct.Struct("<IIQ")
    found = [([], [], []) for _ in range(len(database.nodes))]
    for column in range(database.columns):
        for node, kind, value in values(database, column):
            found[node][kind].append(entry.pack(kind, column, value))
    for kinds in found:
        yield sum(map(len, kinds)).to_bytes(4, "little") + b"".join(map(b"".join, kinds))


def is_context(database):
    """Whether the context plane has the same values, and each statement has samples."""
    sampled = {node for plane in database.planes for node in plane.node}
    statements = {node for node, scope in enumerate(database.nodes.scope) if scope == STMT}
    return statements <= sampled and b"".join(parts(database)) == database.context.data
