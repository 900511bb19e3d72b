"""The rows of nodes, as CSV and as JSON, beside plain counts of the same samples."""
import csv
import io
import json

import databases
from exporter import exported, printed, same
from look_formats import stack_of

KINDS = ("exclusive", "frame", "inclusive")
SCOPES = {"root": "root", "proc": "procedure", "inline": "inlined procedure", "call": "call", "stmt": "statement"}


def hart_names(harts):
    """The names of the harts of one run, or of a list of runs."""
    if isinstance(harts, int):
        return [f"hart {hart}" for hart in range(harts)]
    return [f"run {run} hart {hart}" for run, number in enumerate(harts) for hart in range(number)]


def rows_of(profile, events, harts):
    """The rows that are wanted, each by the names of its columns."""
    nodes, names = databases.tree(profile), hart_names(harts)
    columns = databases.values(nodes, len(names) * len(events))
    paths = []
    for node in nodes:
        parent = node.parent.number
        paths.append((*(paths[parent] if parent is not None else ()), node.scope))
        line = node.scope[-1] if node.scope[0] in ("inline", "call", "stmt") else None
        is_row = isinstance(line, tuple)
        row = {
            "node": node.number,
            "parent": parent,
            "level": len(paths[-1]) - 1,
            "scope": SCOPES[node.scope[0]],
            "procedure": printed(node.scope[1][2].decode()) if node.scope[0] in ("proc", "inline") else None,
            "file": printed(line[2].decode()) if is_row else None,
            "line": line[3] if is_row else None,
            "address": None if is_row or line is None else f"0x{line:08x}",
            "path": stack_of(paths[-1]),
        }
        for column, kinds in enumerate(columns):
            number, period = events[column % len(events)]
            for kind, values in zip(KINDS, kinds):
                name = f"{names[column // len(events)]} {databases.EVENTS[number]} {kind}"
                row[name] = values[node.number] * period
        yield row


def look_at_nodes(name, database, profile, events, harts):
    wanted = list(rows_of(profile, events, harts))
    same(f"{name}: JSON's rows", json.loads(exported(database, "json")), wanted)
    text = exported(database, "csv").decode()
    found = list(csv.DictReader(io.StringIO(text, newline="")))
    as_text = [{key: "" if value is None else str(value) for key, value in row.items()} for row in wanted]
    same(f"{name}: CSV's rows", found, as_text)
    same(f"{name}: CSV's lines", text.count("\r\n"), len(wanted) + 1)
    last, first = databases.EVENTS[events[-1][0]], hart_names(harts)[0]
    part = [{key: value for key, value in row.items() if " hart " not in f" {key}" or key.startswith(f"{first} {last}")}
            for row in wanted]
    same(f"{name}: JSON of one hart and event",
         json.loads(exported(database, "json", "--run", "0", "--hart", "0", "--event", last)), part)
