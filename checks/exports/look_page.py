"""The page: what it holds, and in a browser its tables, graph, search and keys."""
import base64
import json
import re
import struct
import zlib
from collections import defaultdict

import databases
from exporter import complain, exported, printed, same

CALLERS_DEPTH = 2


def frame_costs(rows):
    """Each procedure's frame cost in a printed top-down table: procedures stand below roots and calls."""
    costs, above = defaultdict(int), []
    for row in rows:
        value, indent, label = re.match(r" *\d+ +\d+\.\d +(\d+)  ((?:  )*)(.*)$", row).groups()
        level = len(indent) // 2
        if level == 1 or level > 1 and above[level - 1].startswith("call at "):
            costs[label] += int(value)
        above[level:] = [label]
    return {label: cost for label, cost in costs.items() if cost}


def page_columns(text):
    """The names and the columns of a page, as it unpacks them."""
    names = json.loads(re.search(r'id="names">(.*?)</script>', text, re.S)[1])
    return names, zlib.decompress(base64.b64decode(re.search(r'id="columns">(.*?)</script>', text, re.S)[1]))


def look_at_page(name, database, profile, period, harts):
    text = exported(database, "html").decode()
    for mark in ("http:", "https:", "src=", "href=", "@import", "url("):
        if mark in text:
            complain(f"{name}: the page has {mark}, though it has no network")
    same(f"{name}: scripts of the page", text.count("</script>"), 5)
    names, columns = page_columns(text)
    nodes = databases.tree(profile)
    same(f"{name}: the page's nodes", names["nodes"], len(nodes))
    before = [0 if node.parent.number is None else node.number - node.parent.number for node in nodes]
    found = list(struct.unpack_from(f"<{len(nodes)}i", columns))
    same(f"{name}: how far the page's parents stand before", found, before)
    samples = [sum(count for owner, count, _ in profile if owner == hart) for hart in range(harts)]
    same(f"{name}: the page's samples", names["samples"], samples)
    same(f"{name}: the page's period", names["period"], period)


ALL_TABLES = """
const tables = () => ({top: hpc.table("top"), callers: hpc.table("callers", %d), callees: hpc.table("callees", %d),
  flat: hpc.table("flat")});
const found = {all: tables()};
for (let hart = 0; hart < profile.harts.length; hart++) { view.setHart(hart); found[hart] = tables(); }
view.setHart(-1);
return found;
"""
GRAPH = """
const {icicle} = view, {graph} = icicle;
return {root: graph.label(icicle.root), selected: graph.label(icicle.selected), levels: icicle.levels.length,
  spoken: document.getElementById("spoken").textContent, found: document.getElementById("found").textContent,
  samples: view.found && view.found.samples};
"""
GRID = """
const {grid} = view, rows = [...document.querySelectorAll("#rows [role=row]")];
return {rows: grid.rows.length, roots: grid.rows.filter(row => row.level === 0).length, at: grid.at,
  sum: grid.rows.filter(row => row.level === 0).reduce((sum, row) => sum + row.exclusive, 0),
  has: grid.rows[grid.at].has,
  active: document.getElementById(document.getElementById("grid").getAttribute("aria-activedescendant")) !== null,
  told: rows.every(row => row.getAttribute("aria-level") && row.querySelectorAll("[role=gridcell]").length === grid.columns.length + 1)};
"""
SORTED = """
const {grid} = view, found = {};
for (const column of grid.columns) {
  grid.sortBy(column);
  if (!grid.sort.down) grid.sortBy(column);
  found[column] = grid.rows.filter(row => row.level === 0).map(row => valueOf(row, column));
}
grid.sortBy("inclusive");
return found;
"""


def page_rows(rows):
    return [f"{all_:16} {share:>6} {own:16}  {'  ' * level}{name}" for level, all_, share, own, name in rows]


def shown(rows):
    return [printed(row) for row in rows]


def look_in_browser(window, name, page, profile, period, words):
    window.open(page)
    for hart, tables in window.run(ALL_TABLES % (CALLERS_DEPTH, CALLERS_DEPTH)).items():
        part = [entry for entry in profile if hart == "all" or entry[0] == int(hart)]
        if part:
            wanted = {
                "top": databases.top_down(part, period),
                "callers": databases.callers(part, period, CALLERS_DEPTH),
                "callees": databases.callees(part, period, CALLERS_DEPTH),
                "flat": databases.flat(part, period),
            }
            for kind, rows in wanted.items():
                same(f"{name}: {kind} table, hart {hart}", page_rows(tables[kind]), shown(rows))
    look_at_graph(window, name, profile, words)
    look_at_tables(window, name, profile)
    same(f"{name}: fetched from elsewhere", window.run("return performance.getEntriesByType('resource').length;"), 0)


def look_at_graph(window, name, profile, words):
    """Keys and the mouse zoom, and a search finds what the samples have."""
    total = sum(count for _, count, _ in profile)
    same(f"{name}: where the graph begins", window.run(GRAPH)["root"], "all samples")
    window.run("document.getElementById('scroll').focus();")
    window.press("ArrowDown", "ArrowDown", "Enter")
    zoomed = window.run(GRAPH)
    same(f"{name}: Enter zooms to what is selected", zoomed["root"], zoomed["selected"])
    if zoomed["root"] == "all samples" or not zoomed["spoken"].startswith(zoomed["root"]):
        complain(f"{name}: keys don't zoom, or it isn't spoken: {zoomed}")
    window.press("Escape", "Escape")
    same(f"{name}: Escape zooms out", window.run(GRAPH)["root"], "all samples")
    box = "document.getElementById('canvas').getBoundingClientRect()"
    window.click(*window.run(f"const box = {box}; return [box.left + 9, box.top + 1.5 * ROW];"))
    if profile:
        same(f"{name}: a click zooms", window.run(GRAPH)["root"] in databases.ROOTS, True)
    window.run("view.icicle.zoom(view.icicle.graph.count);")
    window.press("/")
    window.write(words)
    window.press("Enter")
    matching = sum(count for _, count, path in profile
                   if any(scope[0] in ("proc", "inline") and words in scope[1][2].decode() for scope in path))
    found = window.run(GRAPH)
    same(f"{name}: samples that a search finds", found["samples"], matching)
    same(f"{name}: the search's share", found["found"].split(" · ")[1], f"{matching * 1000 // total / 10} %")
    same(f"{name}: Enter goes to what is found", words in found["selected"], True)
    window.press("Escape")
    same(f"{name}: Escape ends a search", window.run(GRAPH)["found"], "")


def look_at_tables(window, name, profile):
    """Keys unfold and fold the tables; they sort; their exclusive costs are the total."""
    total = sum(count for _, count, _ in profile)
    for kind in ("top", "callers", "callees", "flat"):
        window.run(f"document.getElementById('tab-{kind}').click(); view.grid.foldAll(); view.grid.element.focus();")
        folded = window.run(GRID)
        window.press("ArrowRight")
        unfolded = window.run(GRID)
        same(f"{name}: the {kind} table unfolds", unfolded["rows"] > folded["rows"], folded["has"])
        same(f"{name}: a screen reader's {kind} table", unfolded["active"] and unfolded["told"], True)
        window.press("ArrowDown", "ArrowUp", "ArrowLeft")
        same(f"{name}: the {kind} table folds", window.run(GRID)["rows"], folded["rows"])
        if kind != "top":
            same(f"{name}: exclusive sum of the {kind} table", folded["sum"], total)
        for column, found in window.run(SORTED).items():
            same(f"{name}: the {kind} table sorted by {column}", found, sorted(found, reverse=True))
