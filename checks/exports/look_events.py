"""Databases of several events: each format of each event, the page's choice of one, and what is refused, beside plain
counts of the event's samples."""
import re
import subprocess
import sys

import databases
from exporter import TOP, complain, export, exported, same
from look_controls import LATER, tables_are
from look_formats import (
    callgrind_events,
    folded_lines,
    look_at_callgrind,
    look_at_folded,
    look_at_speedscope,
    read_callgrind,
)
from look_nodes import look_at_nodes
from look_page import frame_costs, page_columns, page_rows

# Callgrind's names, and what the page says.
COSTS = ("Instructions", "Loads", "Stores", "TakenBranches")
UNITS = ("retired instructions", "loads", "stores", "taken branches")


def look_at_events(window, folder):
    """Looks at each database, and gives the pages."""
    for name, (profile, events, harts) in databases.EVENT_PROFILES.items():
        file = name.replace(" ", "_").replace(",", "")
        database, page = folder / f"{file}.db", folder / f"{file}.html"
        database.write_bytes(databases.events_database(profile, events, harts))
        if harts < 16:
            look_at_event_formats(window, name, database, profile, events, harts)
        look_at_absent(name, database, events)
        look_at_event_page(name, database, profile, events, harts)
        look_at_nodes(name, database, profile, events, harts)
        exported(database, "html", "-o", page)
        if window:
            look_at_choice(window, name, page, profile, events)
        yield page
    look_at_changed_events()


def look_at_event_formats(window, name, database, profile, events, harts):
    """Each event by its name; callgrind has all events without one."""
    written = exported(database, "callgrind")
    same(f"{name}: callgrind's events", callgrind_events(written), [COSTS[number] for number, _ in events])
    first = databases.EVENTS[events[0][0]]
    same(f"{name}: the first event", exported(database, "folded"), exported(database, "folded", "--event", first))
    for place, (number, period) in enumerate(events):
        part, words = databases.of_event(profile, events, place), ("--event", databases.EVENTS[number])
        what = f"{name}, {words[1]}"
        look_at_folded(what, database, part, period, 1, *words)
        names = look_at_speedscope(window, what, database, part, period, harts, *words)
        same(f"{what}: speedscope's names", names, [f"hart {hart}, {words[1]}" for hart in range(harts)])
        look_at_callgrind(what, database, part, period, place=place)
    look_at_callgrind(f"{what} alone", database, part, period, *words)


def look_at_absent(name, database, events):
    """An event that isn't there has no format."""
    names = [databases.EVENTS[number] for number, _ in events]
    absent = [event for event in databases.EVENTS if event not in names]
    for event in absent[:1]:
        line = f"hpc-export: {database}: no event {event}; there is {' and '.join(names)}\n"
        same(f"{name}: no {event}", export(database, "folded", "--event", event), (2, b"", line))
    same(f"{name}: an unknown event", export(database, "folded", "--event", "branches")[:2], (2, b""))


def look_at_event_page(name, database, profile, events, harts):
    names, _ = page_columns(exported(database, "html").decode())
    wanted = [{"name": databases.EVENTS[number], "unit": UNITS[number], "period": period} for number, period in events]
    same(f"{name}: the page's events", names["events"], wanted)
    samples = [sum(count for owner, count, _ in profile if owner == column) for column in range(harts * len(events))]
    same(f"{name}: the page's samples", names["samples"], samples)
    last = len(events) - 1
    names, _ = page_columns(exported(database, "html", "--event", databases.EVENTS[events[last][0]]).decode())
    same(f"{name}: the event that the page begins with", names["event"], last)


# ---- the page in a browser


def look_at_choice(window, name, page, profile, events):
    window.open(page)
    found = window.run("return [...document.getElementById('event').options].map(option => option.text);")
    same(f"{name}: the events to choose", found, [UNITS[number] for number, _ in events])
    is_hidden = window.run("return document.getElementById('event-field').hidden;")
    same(f"{name}: the choice is hidden", is_hidden, len(events) == 1)
    for place, (number, period) in enumerate(events):
        event, part = databases.EVENTS[number], databases.of_event(profile, events, place)
        if place:
            window.run("document.getElementById('event').focus();")
            window.press("ArrowDown")
        same(f"{name}: the event that is shown", window.run("return view.shown.event;"), place)
        facts = window.run("return document.getElementById('facts').textContent;")
        same(f"{name}: the facts of {event}", UNITS[number] in facts and f"one in {period:,}" in facts, True)
        if part:
            tables_are(window, f"{name}: {event}", part, period)
        total = window.run("const {graph} = view.icicle; return graph.inclusive[graph.count];")
        same(f"{name}: the graph of {event}", total, sum(count for _, count, _ in part))
    look_at_event_link(window, name, page, events)


def look_at_event_link(window, name, page, events):
    """A link keeps the event; the first one, and one that isn't there, need no word."""
    window.run(LATER)
    fragment, last = window.run("return location.hash;"), len(events) - 1
    same(f"{name}: the event in a link", f"event={databases.EVENTS[events[last][0]]}" in fragment, last > 0)
    window.open(page, fragment=fragment)
    same(f"{name}: a link's event", window.run("return view.shown.event;"), last)
    window.open(page, fragment="#event=branches")
    same(f"{name}: a link's event that isn't there", window.run("return view.shown.event;"), 0)


# ---- an example, by the program


def look_at_event_examples(window, program, folder):
    """The tables of a report of several events, each beside the formats of its event."""
    files = [TOP / "examples" / "histogram" / file for file in ("program", "input", "schedule")]
    database, page = folder / "histogram.db", folder / "histogram.html"
    words = [program, "profile", *files, "retired:97,loads:3,stores:11,taken:31", "1", database]
    report = subprocess.run(words, capture_output=True).stdout.decode()
    exported(database, "html", "-o", page, "--source", TOP)
    if window:
        window.open(page)
    parts = re.split(r"^event (\w+) period \d+ samples \d+ total (\d+)$", report, flags=re.M)[1:]
    same("histogram: the report's events", parts[::3], list(databases.EVENTS))
    for place, (event, total, table) in enumerate(zip(parts[::3], parts[1::3], parts[2::3])):
        rows = table.splitlines()[2:]
        sums = sum(folded_lines(exported(database, "folded", "--event", event)).values())
        same(f"histogram, {event}: folded sum", sums, int(total))
        own, _, _, _ = read_callgrind(exported(database, "callgrind"), place)
        same(f"histogram, {event}: callgrind beside the printed frame costs", own, frame_costs(rows))
        if window:
            found = window.run(f"view.setEvent({place}); return hpc.table('top');")
            same(f"histogram, {event}: the page beside the printed table", page_rows(found), rows)
    yield page


# ---- malformed ones


def look_at_changed_events():
    """Each byte of a database changed in turn, and each front of it."""
    whole = databases.events_database(*databases.EVENT_PROFILES["small events"])
    look_at_malformed("two events", changed(whole))


def changed(whole):
    """Each front of a database, a byte more, and each byte as some others."""
    yield from (whole[:length] for length in range(len(whole)))
    yield whole + b"\0"
    for at, byte in enumerate(whole):
        for value in {0, 3, 255, byte ^ 1, byte ^ 4} - {byte}:
            yield whole[:at] + bytes([value]) + whole[at + 1 :]


def look_at_malformed(name, cases):
    """What the exporter's reader says of each, beside the plain reading of the rules."""
    sys.path.insert(0, str(TOP / "tools"))
    from hpc_export.database import Malformed
    from hpc_export.reader import read

    rules = plain_rules()
    for data in cases:
        fault = rules.check(data)
        try:
            read(data)
            found = None
        except Malformed as error:
            found = error.rule, error.offset
        wanted = fault and (fault.rule, fault.offset)
        if found != wanted:
            complain(f"{name}, malformed: found {found}, not {wanted}: {data[:48].hex()}")


def plain_rules():
    from importlib.machinery import SourceFileLoader
    from importlib.util import module_from_spec, spec_from_loader

    path = TOP / "checks" / "files" / "database_rules"
    spec = spec_from_loader("database_rules", SourceFileLoader("database_rules", str(path)))
    module = module_from_spec(spec)
    sys.dont_write_bytecode = True
    spec.loader.exec_module(module)
    return module
