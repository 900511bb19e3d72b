"""One page for a browser, without any network: the files of page/ put together, with the database in it.

The page gets the nodes and the exclusive counts of samples, of each hart and event; all sums are its own. They are columns of numbers, deflated
and in base64; the names are JSON, and so are the sources that were found, deflated too. Of a trace it gets two columns more for
each hart (timeline.py).
"""
import base64
import json
import re
import zlib
from array import array
from itertools import compress
from pathlib import Path

from .columns import numbers, packed, whole
from .comparison import compared
from .contexts import Shown, readable
from .database import ROOT

FOLDER = Path(__file__).with_name("page")
# One script of the page each, in this order.
SCRIPTS = (
    "profile.js", "shown.js", "spread.js", "graph.js", "colors.js", "icicle.js", "rows.js", "tables.js", "grid.js",
    "search.js", "source.js", "filters.js", "panes.js", "trace.js", "timeline.js", "picture.js", "link.js", "view.js",
    "main.js",
)


_IS_ROOT = bytes(scope == ROOT for scope in range(256))


def write(out, database, options):
    if options.base:
        database, options = compared(database, options)
    contents = {
        "TITLE": _escaped(options.title),
        "STYLE": (FOLDER / "style.css").read_text("utf-8"),
        "SCRIPT": "\n".join((FOLDER / name).read_text("utf-8") for name in SCRIPTS),
        "NAMES": _names(database, options),
        "SOURCES": _packed([_json(_sources(database, options)).encode()]),
        "COLUMNS": _packed(_columns(database, options)),
        "TRACE": _packed(options.timeline.packed() if options.timeline else []),
    }
    # Text and marks in turn.
    parts = re.split("@(TITLE|STYLE|SCRIPT|NAMES|SOURCES|COLUMNS|TRACE)@", (FOLDER / "body.html").read_text("utf-8"))
    for place, part in enumerate(parts):
        out.write((contents[part] if place % 2 else part).encode())


def _escaped(text):
    return text.replace("&", "&amp;").replace("<", "&lt;")


def _json(value):
    return json.dumps(value, separators=(",", ":"))


def _planes(database, options):
    """The planes that the page has, hart by hart and of each hart event by event."""
    every = [Shown(options.shown.harts, place) for place in range(len(database.events))]
    return [shown.plane(database, hart) for hart in options.shown.harts for shown in every]


def _names(database, options):
    planes = _planes(database, options)
    events = [{"name": event.name, "unit": event.unit, "period": event.period} for event in database.events]
    names = {
        "title": options.title,
        "version": database.version,
        **({"period": events[0]["period"]} if database.version == 1 else {"events": events, "event": options.shown.place}),
        # Of each hart that is shown its number in its run, and the run.
        "harts": [database.places[hart][1] for hart in options.shown.harts],
        **({"runs": [database.places[hart][0] for hart in options.shown.harts]} if database.version > 2 else {}),
        "procedures": [readable(procedure.name) for procedure in database.procedures],
        "files": [readable(file.name) for file in database.files],
        "nodes": len(database.nodes),
        "samples": [sum(plane.samples) for plane in planes],
        "entries": [len(plane.node) for plane in planes],
        "minimum": options.min_percent,
        "partial": options.causes,
    }
    if options.timeline:
        names["trace"] = options.timeline.facts()
    if options.base:
        planes = options.base.planes
        names["before"] = {
            "title": options.base.title,
            "periods": [plane.period for plane in planes],
            "entries": [len(plane.node) for plane in planes],
        }
    # Within a script element nothing may look like its end.
    return _json(names).replace("<", "\\u003c")


def _sources(database, options):
    """The lines of each file that is found, by its place in the list of files."""
    found = {}
    for place, file in enumerate(database.files):
        lines = options.sources.lines(readable(file.name))
        if lines is not None:
            found[place] = lines
    return found


def _columns(database, options):
    """Columns of 4 bytes each: how far the parent stands before (0 where there is none), operand, file of the line (-1
    where there is none), line; for each hart and event the nodes and counts, and of a comparison for each event those
    before; and at last the scopes of a byte each."""
    nodes, count = database.nodes, len(database.nodes)
    own, parent = array("I", range(count)), array("i", nodes.parent)
    for root in compress(own, nodes.scope.translate(_IS_ROOT)):
        parent[root] = root
    steps = (whole(packed(own)) - whole(packed(parent))).to_bytes(4 * count, "little")
    line_file, line = (numbers("I", packed(column)) for column in (nodes.line_file, nodes.line))
    # The upper half of -1 is ones, which leaves 0.
    lines = (whole(packed(line[0::2])) & ~whole(packed(line[1::2]))).to_bytes(4 * count, "little")
    columns = [steps, packed(nodes.operand), packed(line_file[0::2]), lines]
    for plane in _planes(database, options):
        columns += packed(plane.node), packed(array("I", plane.samples))
    for plane in options.base.planes if options.base else []:
        columns += packed(plane.node), packed(plane.samples)
    return columns + [nodes.scope]


def _packed(parts):
    packer = zlib.compressobj(4)
    packed = [packer.compress(part) for part in parts]
    return base64.b64encode(b"".join(packed) + packer.flush()).decode()
