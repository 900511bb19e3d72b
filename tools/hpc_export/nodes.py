"""A row for each node of the calling context tree, for spreadsheets and for programs: as CSV (RFC 4180), or as JSON, a
list of objects. `pandas.read_csv` and `pandas.read_json` read them as they are.

A row has the node's number and its parent's, its level, its scope with procedure, file, line and address where it has
these, its call path as the folded stacks have it, and its values: of each hart, event and kind one. Values of 0 are
written too.
"""
import csv
import io
import json
from array import array
from itertools import chain

from . import folded
from .contexts import readable
from .database import INLINE, PROC

SCOPES = ("root", "procedure", "inlined procedure", "call", "statement")
KINDS = ("exclusive", "frame", "inclusive")
FIELDS = ("node", "parent", "level", "scope", "procedure", "file", "line", "address", "path")


def write_csv(out, database, options):
    heads, rows = _table(database, options)
    text = io.TextIOWrapper(out, "utf-8", newline="")
    writer = csv.writer(text)
    writer.writerow(heads)
    writer.writerows(rows)
    text.flush()
    # The file stays open for who opened it.
    text.detach()


def write_json(out, database, options):
    heads, rows = _table(database, options)
    out.write(b"[")
    for number, row in enumerate(rows):
        out.write(b",\n" if number else b"\n")
        out.write(json.dumps(dict(zip(heads, row)), separators=(",", ":")).encode())
    out.write(b"\n]\n")


def _table(database, options):
    """The heads of the columns, and the rows."""
    columns = [(shown, hart) for hart in options.shown.harts for shown in options.every]
    heads = [f"{database.hart_name(hart)} {shown.event(database).name} {kind}" for shown, hart in columns for kind in KINDS]
    values = chain.from_iterable(_values(database.nodes, shown.plane(database, hart)) for shown, hart in columns)
    return [*FIELDS, *heads], map(_joined, _scopes(database, options), zip(*values))


def _joined(scope, values):
    return (*scope, *values)


def _values(nodes, plane):
    """The exclusive, frame and inclusive values of a column, a list of each with a value for each node."""
    found = [array("Q", bytes(8 * len(nodes))) for _ in KINDS]
    rows, kinds, values = plane.columns()
    for node, kind, value in zip(rows, kinds, values):
        found[kind][node] = value
    return found


def _scopes(database, options):
    """What each node is, and where it is."""
    nodes, levels = database.nodes, []
    procedures = [readable(procedure.name) for procedure in database.procedures]
    files = [readable(file.name) for file in database.files]
    paths = folded.paths(database, options)
    fields = zip(nodes.parent, nodes.scope, nodes.operand, nodes.line_file, nodes.line, paths)
    for node, (parent, scope, operand, file, line, path) in enumerate(fields):
        levels.append(levels[parent] + 1 if parent >= 0 else 0)
        has_line, is_row = scope >= INLINE, file >= 0
        yield (
            node,
            parent if parent >= 0 else None,
            levels[node],
            SCOPES[scope],
            procedures[operand] if scope in (PROC, INLINE) else None,
            files[file] if is_row else None,
            line if is_row else None,
            f"0x{line:08x}" if has_line and not is_row else None,
            path.decode("utf-8", "replace"),
        )
