"""Databases of several runs: each format of chosen runs and harts, the page's choice of a run and a hart, and its bars,
beside plain counts; and two databases compared."""
import json

import browser
import databases
from exporter import TOP, export, exported, same
from look_controls import LATER, tables_are
from look_events import changed, look_at_malformed
from look_formats import folded_lines, look_at_folded, stack_of
from look_nodes import look_at_nodes
from look_page import page_columns
from look_spread import hundredths

# Of these the page's tables are compared.
MOST_HARTS_ON_PAGE = 16


def places_of(runs):
    """For each hart its run and its number there."""
    return [(run, hart) for run, harts in enumerate(runs) for hart in range(harts)]


def part_of(profile, events, runs, place, run=None, hart=None):
    """The samples of an event in the harts that are chosen: hart of all, number of samples, path."""
    places = places_of(runs)
    return [(at, count, path) for at, count, path in databases.of_event(profile, events, place)
            if run in (None, places[at][0]) and hart in (None, places[at][1])]


def look_at_runs(window, folder):
    """Looks at each database, and gives the pages."""
    for name, (profile, events, runs) in databases.RUN_PROFILES.items():
        file = name.replace(" ", "_").replace(",", "")
        database, page = folder / f"{file}.db", folder / f"{file}.html"
        database.write_bytes(databases.runs_database(profile, events, runs))
        look_at_choices(name, database, profile, events, runs)
        look_at_columns(name, database, profile, events, runs)
        if sum(runs) < 64:
            look_at_nodes(name, database, profile, events, runs)
        exported(database, "html", "-o", page)
        if window and profile and sum(runs) <= MOST_HARTS_ON_PAGE:
            look_at_choice(window, name, page, profile, events, runs)
            look_at_run_bars(window, name, page, profile, events, runs)
        yield page
    look_at_changed_runs()


def look_at_choices(name, database, profile, events, runs):
    """Folded stacks of each run, of the first harts, and of a hart of a run."""
    number, period = events[0]
    whole = part_of(profile, events, runs, 0)
    look_at_folded(name, database, whole, period, 0)
    for run in range(len(runs)):
        part = part_of(profile, events, runs, 0, run)
        look_at_folded(f"{name}, run {run}", database, part, period, 0, "--run", str(run))
    last = max(runs) - 1
    words = ["--hart", str(last)]
    look_at_folded(f"{name}, hart {last}", database, part_of(profile, events, runs, 0, hart=last), period, 0, *words)
    absent = len(runs)
    line = f"hpc-export: {database}: runs are 0 to {absent - 1}\n"
    same(f"{name}: no run {absent}", export(database, "folded", "--run", str(absent)), (2, b"", line))
    line = f"hpc-export: {database}: harts are 0 to {runs[1] - 1}\n"
    same(f"{name}: no hart of run 1", export(database, "folded", "--run", "1", "--hart", str(runs[1])), (2, b"", line))
    speedscope = json.loads(exported(database, "speedscope"))
    names = [f"run {run} hart {hart}, {databases.EVENTS[number]}" for run, hart in places_of(runs)]
    same(f"{name}: speedscope's names", [profile["name"] for profile in speedscope["profiles"]], names)


def look_at_columns(name, database, profile, events, runs):
    """What the page holds."""
    names, _ = page_columns(exported(database, "html").decode())
    same(f"{name}: the page's runs and harts", list(zip(names["runs"], names["harts"])), places_of(runs))
    samples = [0] * (sum(runs) * len(events))
    for column, count, _ in profile:
        samples[column] += count
    same(f"{name}: the page's samples", names["samples"], samples)


def look_at_choice(window, name, page, profile, events, runs):
    """Each run, each hart of it and of all, and a link that keeps the choice."""
    window.open(page)
    period = events[0][1]
    for run in (None, *range(len(runs))):
        for hart in (None, *range(max(runs) if run is None else runs[run])):
            part = part_of(profile, events, runs, 0, run, hart)
            words = f"view.choose({{run: {-1 if run is None else run}, hart: {-1 if hart is None else hart}}});"
            window.run(words)
            if part:
                tables_are(window, f"{name}: run {run}, hart {hart}", part, period)
    window.run("document.getElementById('run').focus(); view.setRun(-1);")
    window.press("ArrowDown", "ArrowDown")
    same(f"{name}: a run by keys", window.run("return view.shown.run;"), 1)
    found = window.run("return [...document.getElementById('hart').options].map(option => option.text);")
    numbers = [str(hart) for hart in range(runs[1])]
    same(f"{name}: the harts of run 1", found, [f"all ({runs[1]})" if runs[1] > 1 else "all", *numbers])
    window.run(LATER)
    fragment = window.run("return location.hash;")
    window.open(page, fragment=fragment)
    same(f"{name}: a link's run", window.run("return view.shown.run;"), 1)


BARS = """
await new Promise(done => setTimeout(done));
const bars = [...document.querySelectorAll("#bars > div")];
return {titles: bars.map(bar => bar.title), figures: document.getElementById("spread-figures").textContent};
"""


def look_at_run_bars(window, name, page, profile, events, runs):
    """The samples of each hart below each node, the bars of the first row, and a link that keeps what has bars."""
    window.open(page)
    places, period, count = places_of(runs), events[0][1], len(events)
    nodes = databases.tree(profile)
    values = databases.values(nodes, len(places) * count)
    wanted = [[values[at * count][2][node.number] for at in range(len(places))] for node in nodes]
    found = window.run("return [...profile.scope.keys()].map(node => view.shown.spreads.of([node]));")
    same(f"{name}: samples of each hart", found, wanted)
    window.run("view.setTable('top'); view.grid.foldAll(); view.grid.choose(0);")
    titles = [f"run {run} hart {hart}: {value * period:,}" for (run, hart), value in zip(places, wanted[0])]
    same(f"{name}: the bars of harts", window.run(BARS)["titles"], titles)
    window.click_on("#by-run")
    sums = [sum(value for (of, _), value in zip(places, wanted[0]) if of == run) for run in range(len(runs))]
    bars, some = window.run(BARS), [value for value in sums if value]
    titles = [f"run {run}: {value * period:,}" for run, value in enumerate(sums)]
    same(f"{name}: the bars of runs", bars["titles"], titles)
    words = f"inclusive in {len(some)} of {len(runs)} runs · least {min(some) * period:,} · "
    ends = bars["figures"].startswith(words), bars["figures"].endswith(hundredths(some))
    same(f"{name}: the figures of runs", ends, (True, True))
    window.run(LATER)
    fragment = window.run("return location.hash;")
    window.open(page, fragment=fragment)
    same(f"{name}: a link's bars", window.run("return view.bars.isByRun;"), True)


# ---- two databases


def costs_of(profile, period):
    """The cost of each stack of names."""
    found = {}
    for _, count, path in profile:
        found[stack_of(path)] = found.get(stack_of(path), 0) + count * period
    return found


def moved(path):
    """The path as another build has it: each line three further on, each procedure with another number."""
    def line(of):
        return of + 12 if isinstance(of, int) else (*of[:3], of[3] + 3)

    scopes = []
    for scope in path:
        rest = [(part[0], part[1] + 1000, part[2]) if scope[0] in ("proc", "inline") and place == 0 and part[0] < 2
                else part if scope[0] in ("proc", "inline") and place == 0 or scope[0] == "root" else line(part)
                for place, part in enumerate(scope[1:])]
        scopes.append((scope[0], *rest))
    return tuple(scopes)


def comparisons():
    """Two profiles with their periods and harts each, after and before."""
    recursive = databases.recursive()
    numbered = enumerate(recursive)
    before = [(hart, count + place % 3, moved(path)) for place, (hart, count, path) in numbered if place % 5]
    yield "two builds", (recursive, 97, 2), (before, 89, 2)
    yield "the same", (databases.inlined(), 2, 1), (databases.inlined(), 2, 1)
    yield "with nothing before", (databases.straight(), 5, 1), ([], 21, 1)
    yield "with nothing after", ([], 21, 1), (databases.straight(), 5, 1)


COMPARED = """
const rows = [], waiting = TABLES.top.make(view.samples).map(row => [row]);
while (waiting.length) {
  const path = waiting.pop(), row = path[path.length - 1];
  rows.push([path.map(row => row.name).join("\\n"), row.inclusive * view.shown.period, valueOf(row, "before"),
    valueOf(row, "change")]);
  if (row.has) for (const below of row.make()) waiting.push([...path, below]);
}
return rows;
"""


def look_at_comparisons(window, folder):
    for name, after, before in comparisons():
        files = [folder / f"{name.replace(' ', '_')}.{side}.db" for side in ("after", "before")]
        for file, side in zip(files, (after, before)):
            file.write_bytes(databases.database(*side))
        costs = [costs_of(*side[:2]) for side in (after, before)]
        wanted = {stack: (costs[1].get(stack, 0), costs[0].get(stack, 0)) for stack in {**costs[0], **costs[1]}}
        lines = [line.rsplit(" ", 2) for line in exported(files[0], "folded", "--base", files[1]).decode().splitlines()]
        same(f"{name}: stacks before and after", {stack: (int(a), int(b)) for stack, a, b in lines}, wanted)
        same(f"{name}: a line for each stack", len(lines), len(wanted))
        page = folder / f"{name.replace(' ', '_')}.compared.html"
        exported(files[0], "html", "--base", files[1], "-o", page)
        if window:
            look_at_compared_page(window, name, page, after, before)
            yield page
    for kind in ("callgrind", "csv"):
        status, _, line = export(files[0], kind, "--base", files[1])
        same(f"{kind} of two databases", (status, line), (2, f"hpc-export: {kind} has no --base\n"))
    status, _, line = export(files[0], "folded", "--base", TOP / "README.md")
    same("a base that is no database", (status, line), (3, f"hpc-export: {TOP / 'README.md'}: database rule 1 at 0\n"))


def look_at_compared_page(window, name, page, after, before):
    """Each row of the top-down table with its value before and after: sums over the stacks that begin so."""
    window.open(page)
    sums = {}
    for place, (profile, period, _) in enumerate((after, before)):
        for _, count, path in profile:
            scopes = [scope for scope in path if scope[0] in ("root", "proc", "inline")]
            names = [f"[I] {scope[1][2].decode()}" if scope[0] == "inline" else databases.label(scope)
                     for scope in scopes]
            for length in range(1, len(names) + 1):
                key = "\n".join(names[:length]).translate({7: "?"})
                sums.setdefault(key, [0, 0])[place] += count * period
    wanted = sorted([key, all_, old, all_ - old] for key, (all_, old) in sums.items())
    same(f"{name}: the page's rows", sorted(window.run(COMPARED)), wanted)
    found = window.run("""
      view.grid.foldAll();
      view.grid.sortBy("change", true);
      return view.grid.rows.map(row => valueOf(row, "change"));""")
    same(f"{name}: the rows by change", found, sorted(found, reverse=True))
    look_at_narrow_comparison(window, name, page)
    totals = [sum(count for _, count, _ in side[0]) * side[1] for side in (after, before)]
    facts = window.run("return document.getElementById('facts').textContent;")
    same(f"{name}: the facts", f"{totals[1]:,}, change {totals[0] - totals[1]:+,}".replace("+0", "0") in facts, True)


NARROW = """
view.grid.sortBy("change", true);
const isSeen = element => element.getClientRects().length > 0, by = id => document.getElementById(id);
const changes = view.grid.rows.map(row => valueOf(row, "change")).filter(value => Math.abs(value) < 1000);
const cells = [...document.querySelectorAll("#rows [role=row]")].map(row => row.children[4].textContent);
return {heads: [...document.querySelectorAll("#head > div")].filter(isSeen).map(head => head.textContent),
  buttons: ["graph-kind", "focus-file", "hide-file", "focus-procedure"].filter(id => isSeen(by(id))),
  missed: changes.map(signed).filter(text => !cells.includes(text) && cells.length === view.grid.rows.length)};
"""


def look_at_narrow_comparison(window, name, page):
    """At the width of a phone the change stays, and what was before goes."""
    window.open(page, browser.PHONE)
    wanted = {"heads": ["Scope", "Inclusive", "%", "Change ▾"], "buttons": ["focus-procedure"], "missed": []}
    same(f"{name}: on a phone", window.run(NARROW), wanted)
    window.open(page)


# ---- malformed ones


def look_at_changed_runs():
    """Each byte of a database of two runs changed, and each front of it; of one of many columns a bit of each."""
    whole = databases.runs_database(*databases.RUN_PROFILES["small runs"])
    look_at_malformed("two runs", changed(whole))
    base = ("root", 0), ("proc", databases.NAMELESS)
    profile = [(column, 1, (*base, ("stmt", 0x10010 + 4 * (column % 3)))) for column in range(0, 68, 7)]
    wide = databases.runs_database(profile, [(0, 5)], [64, 4])
    bits = [wide[:at] + bytes([byte ^ 1]) + wide[at + 1 :] for at, byte in enumerate(wide)]
    look_at_malformed("runs of 68 harts", [wide + b"\0", *bits])
