"""A source file with the cost of each line in its margin, as text.

`inclusive` counts each sample once whose call path has a scope at the line: a statement, a call, or a call that was
inlined there. `exclusive` counts those whose statement is at the line. A line without samples has `.`.
"""
from itertools import compress

from .contexts import encoded, ends, readable

HEAD = f"{'inclusive':>16} {'%':>6} {'exclusive':>16} {'%':>6} {'line':>7}  text\n"


class NotFound(Exception):
    """No file of the database, or more than one, has this name."""


def write(out, database, options):
    name, places = _places(database, options.file)
    costs = line_costs(database, options.shown, places)
    total = options.shown.total(database)
    lines = options.sources.lines(name)
    out.write(encoded(f"file {name}\n"))
    if database.version > 1:
        event = options.shown.event(database)
        out.write(encoded(f"event {event.name} period {event.period} samples {total // event.period} total {total}\n"))
    if lines is None:
        out.write(b"its text is not found: say where it lies by --source FOLDER or --source FROM=TO\n")
    out.write(encoded(HEAD))
    texts = dict(enumerate(lines or [], 1))
    if lines and not lines[-1]:
        del texts[len(lines)]
    for line in sorted(set(texts) | set(costs)):
        inclusive, exclusive = costs.get(line, (0, 0))
        if 100 * inclusive < options.min_percent * total:
            inclusive = exclusive = 0
        figures = _figures(inclusive, total) + " " + _figures(exclusive, total)
        out.write(encoded(f"{figures} {line:7}  {texts.get(line, '')}".rstrip() + "\n"))


def _figures(value, total):
    if not value:
        return f"{'.':>16} {'.':>6}"
    tenths = value * 1000 // total
    return f"{value:16} {f'{tenths // 10}.{tenths % 10}':>6}"


def _places(database, wanted):
    """The name and the places of the files that are called so, or whose names end so."""
    names = [readable(file.name) for file in database.files]
    found = {name for name in names if name == wanted} or {name for name in names if name.endswith("/" + wanted)}
    if len(found) != 1:
        if found:
            raise NotFound(f"{wanted}: several files end so: {', '.join(sorted(found))}")
        raise NotFound(f"{wanted}: no file of the database is called so")
    name = found.pop()
    return name, {place for place, each in enumerate(names) if each == name}


def line_costs(database, shown, places):
    """The inclusive and exclusive value of each line of these files."""
    nodes, inclusive, exclusive = database.nodes, shown.inclusive(database), shown.exclusive(database)
    rows = zip(range(len(nodes)), nodes.line, inclusive, exclusive, ends(nodes))
    costs, covered = {}, {}
    for node, line, with_calls, alone, end in compress(rows, map(places.__contains__, nodes.line_file)):
        if with_calls:
            all_, own = costs.get(line, (0, 0))
            if node >= covered.get(line, 0):
                covered[line] = end
                all_ += with_calls
            costs[line] = all_, own + alone
    return costs
