"""The page's controls, each driven in a browser: what it does is compared with plain counts of the same samples."""
import json

import databases
from exporter import complain, exported, same
from look_page import page_rows, shown

DEPTH = 2
TABLES = """
return {total: view.samples.total, top: hpc.table("top"), callers: hpc.table("callers", %d), flat: hpc.table("flat")};
""" % DEPTH
STATE = """
const {icicle, grid, shown, search, source} = view;
return {hart: shown.hart, filters: shown.filters, graph: view.graphKind, cost: view.isByCost, zoom: icicle.root,
  node: icicle.selected, table: view.kind, of: view.procedure, sort: grid.sort, row: grid.orders(grid.at),
  search: search.words, least: view.percent, source: [view.isSourceShown, source.file, source.at],
  panes: view.edges.map(edge => edge.share.toFixed(2))};
"""
SELECTED = """
const {grid, icicle} = view, row = grid.rows[grid.at], {graph} = icicle;
return {row: row.name, node: row.node, graphNode: icicle.selected, of: view.graphNodeOf(row), procedure: row.procedure,
  label: graph.label(icicle.selected)};
"""
# The fragment is written a moment after a change.
LATER = "await new Promise(done => setTimeout(done, 500));"
SEEN = """
const {element, at} = view.grid, row = document.getElementById(`row-${at}`);
if (!row) return false;
const inner = row.getBoundingClientRect(), outer = element.getBoundingClientRect();
return inner.top >= outer.top && inner.bottom <= outer.bottom + 1;
"""


def look_at_controls(window, name, page, profile, period):
    window.open(page)
    look_at_hot_path(window, name, page)
    look_at_filters(window, name, profile, period)
    look_at_sandwich(window, name, profile, period)
    look_at_least(window, name)
    look_at_order(window, name)
    look_at_following(window, name)
    look_at_panes(window, name)
    look_at_copies(window, name)
    look_at_link(window, name, page)


def look_at_hot_path(window, name, page):
    """The first click on it shows the row that it chose, however deep."""
    window.run("view.grid.foldAll();")
    window.open(page)
    window.click_on("#hot")
    same(f"{name}: the end of the hot path is seen", window.run(SEEN), True)


def tables_are(window, what, part, period):
    found = window.run(TABLES)
    same(f"{what}: samples", found["total"], sum(count for _, count, _ in part))
    wanted = {"top": databases.top_down(part, period), "callers": databases.callers(part, period, DEPTH),
              "flat": databases.flat(part, period)}
    for kind, rows in wanted.items():
        same(f"{what}: {kind} table", page_rows(found[kind]), shown(rows))


def selected_procedure(window, of):
    """Selects a procedure's row in the callers table."""
    window.run(f"view.setTable('callers'); view.grid.follow([{of}], true); view.grid.element.focus();")


def has_procedure(path, procedure):
    return any(scope[0] in ("proc", "inline") and scope[1] == procedure for scope in path)


def has_file(path, file):
    """Whether a call or a statement of the path is in the file."""
    lines = [scope[1] for scope in path if scope[0] in ("call", "stmt")]
    return any(line[:3] == file for line in lines if not isinstance(line, int))


def look_at_filters(window, name, profile, period):
    procedures = sorted({scope[1] for _, _, path in profile for scope in path if scope[0] in ("proc", "inline")})
    # The plain counts of a deep path take long.
    for of, procedure in enumerate(procedures if len(profile) < 200 else []):
        if not any(("proc", procedure) in path for _, _, path in profile):
            continue
        selected_procedure(window, of)
        window.press("f")
        focused = [entry for entry in profile if has_procedure(entry[2], procedure)]
        tables_are(window, f"{name}: focus on {procedure[2]}", focused, period)
        window.click_on("#filters button")
        same(f"{name}: a filter is taken off", window.run("return view.shown.filters.length;"), 0)
        selected_procedure(window, of)
        window.press("h")
        hidden = [(hart, count, databases.without(path, lambda p: p == procedure)) for hart, count, path in profile]
        found = window.run(TABLES)
        same(f"{name}: {procedure[2]} hidden", page_rows(found["top"]), shown(databases.top_down(hidden, period)))
        window.run("view.setFilters([]);")
    look_at_file_filters(window, name, profile, period)
    if len(profile) < 200:
        tables_are(window, f"{name}: without filters", profile, period)


def look_at_file_filters(window, name, profile, period):
    files = sorted({line[:3] for _, _, path in profile for scope in path for line in scope[1:]
                    if scope[0] in ("inline", "call", "stmt") and isinstance(line, tuple) and len(line) == 4})
    for of, file in enumerate(files):
        part = [entry for entry in profile if has_file(entry[2], file)]
        window.run(f"view.setFilters([{{what: 'focus', kind: 'file', of: {of}}}]);")
        if part:
            tables_are(window, f"{name}: focus on {file[2]}", part, period)
    window.run("view.setFilters([]); view.setTable('flat'); view.grid.choose(0); view.grid.element.focus();")
    if not files:
        return
    total = window.run("return view.samples.total;")
    window.press("H")
    hidden = window.run("return [view.shown.filters.map(({what, kind}) => what + kind).join(), view.samples.total];")
    same(f"{name}: a file hidden", hidden, ["hidefile", total] if hidden[0] else ["", total])
    window.run("view.setFilters([]);")


def look_at_sandwich(window, name, profile, period):
    """Callers and callees of one procedure in one table: the parts of the callers and the callees table."""
    for of in window.run("return [...procedureGroups(view.samples).keys()].slice(0, 4);"):
        selected_procedure(window, of)
        window.press("a")
        rows = window.run("return [view.kind, view.procedure, hpc.table('sandwich', 2)];")
        same(f"{name}: a goes to the callers and callees", rows[:2], ["sandwich", of])
        wanted = window.run(f"""
          const rows = kind => {{
            const all = hpc.table(kind, 1), name = profile.procedures[{of}];
            const from = all.findIndex(row => row[0] === 0 && row[4] === name);
            const end = all.findIndex((row, k) => k > from && row[0] === 0);
            return all.slice(from + 1, end < 0 ? all.length : end).map(row => row.slice(1).join());
          }};
          return [rows("callers").sort(), rows("callees").sort()];""")
        at = [row[4] for row in rows[2]].index("callees")
        sides = rows[2][2:at], rows[2][at + 1 :]
        found = [sorted(",".join(map(str, row[1:])) for row in side if row[0] == 1) for side in sides]
        if window.run("return new Set(profile.procedures).size === profile.procedures.length;"):
            same(f"{name}: callers and callees of {of}", found, wanted)


def look_at_least(window, name):
    window.run("view.setTable('top'); document.getElementById('least').focus();")
    for _ in range(45):
        window.press("ArrowRight")
    found = window.run("""
      return {percent: view.percent, text: document.getElementById("least-text").textContent,
        rows: view.grid.rows.map(row => 100 * row.inclusive / view.samples.total),
        boxes: view.icicle.levels.flat().filter(([node]) => node >= 0).map(([node]) =>
          100 * view.icicle.graph.inclusive[node] / view.samples.total)};""")
    least = found["percent"]
    same(f"{name}: the slider's share", (least > 4, found["text"]), (True, f"{round(least, 2):g} %"))
    low = [value for value in found["rows"] + found["boxes"] if value < least]
    same(f"{name}: rows and boxes below the least share", low, [])
    window.run("view.setLeast(0);")


def look_at_order(window, name):
    """By cost: of each node the boxes below it have falling widths."""
    window.click_on("#by-cost")
    falls = window.run("""
      const {graph} = view.icicle;
      for (let node = 0; node <= graph.count; node++)
        for (let child = graph.first[node]; child >= 0 && graph.next[child] >= 0; child = graph.next[child])
          if (graph.inclusive[child] < graph.inclusive[graph.next[child]]) return false;
      return document.getElementById("by-cost").getAttribute("aria-pressed") === "true";""")
    same(f"{name}: the costliest first", falls, True)
    window.click_on("#by-cost")
    same(f"{name}: places again", window.run("return view.isByCost;"), False)


def look_at_following(window, name):
    """A click in the graph moves the table, and keys in the table move the graph; a search moves both."""
    for kind in ("procedure", "scope"):
        window.run(f"view.setGraph('{kind}'); view.setTable('top');")
        box = window.run("const box = document.getElementById('canvas').getBoundingClientRect();"
                         "return [box.left + 9, box.top + 2.5 * ROW];")
        window.click(*box)
        found = window.run(SELECTED)
        same(f"{name}: the table follows a click, {kind}", found["of"], found["graphNode"])
        same(f"{name}: the row is seen", window.run(SEEN), True)
        window.run("view.icicle.zoom(view.icicle.graph.count); view.grid.choose(0); view.grid.element.focus();")
        window.press("ArrowRight", "ArrowDown")
        found = window.run(SELECTED)
        same(f"{name}: the graph follows keys, {kind}", found["graphNode"], found["of"])
    window.run("view.setGraph('procedure'); view.setTable('callers');")
    window.press("/")
    window.write(window.run("return profile.procedures[profile.operand[profile.scope.lastIndexOf(PROC)]];"))
    window.press("Enter")
    found = window.run(SELECTED)
    same(f"{name}: the table follows a search", found["row"], found["label"].replace("[I] ", ""))
    window.press("Escape")


def look_at_panes(window, name):
    size = "return [document.getElementById('graph').clientHeight, document.getElementById('grid').clientWidth];"
    height, width = window.run(size)
    window.run("document.getElementById('edge').focus();")
    window.press("ArrowDown", "ArrowDown")
    same(f"{name}: the edge moves by keys", window.run(size)[0] > height, True)
    x, y = window.run("const box = document.getElementById('edge').getBoundingClientRect();"
                      "return [box.left + box.width / 2, box.top + box.height / 2];")
    window.mouse("mouseMoved", x, y)
    window.mouse("mousePressed", x, y)
    window.mouse("mouseMoved", x, y - 120)
    window.mouse("mouseReleased", x, y - 120)
    same(f"{name}: the edge moves by the mouse", window.run(size)[0] < height, True)
    window.run("if (!view.isSourceShown) document.getElementById('sources').click();")
    beside = window.run(size)[1]
    window.run("document.getElementById('side-edge').focus();")
    window.press("ArrowLeft")
    same(f"{name}: the table's edge moves by keys", width >= beside > window.run(size)[1], True)
    window.press("ArrowRight")


def look_at_copies(window, name):
    """Copy and CSV have the rows that are unfolded."""
    window.run("""
      window.kept = {};
      Object.defineProperty(navigator, "clipboard", {configurable: true, value: {
        writeText: async text => { kept.copy = text; }}});
      URL.createObjectURL = blob => { kept.blob = blob; return "about:blank#"; };
      HTMLAnchorElement.prototype.click = function () { kept.name = this.download; };
      view.setTable("flat");""")
    window.click_on("#copy")
    window.click_on("#csv")
    found = window.run("""
      kept.csv = await kept.blob.text();
      return {...kept, rows: view.grid.rows.map(row => [row.level, row.name, row.inclusive * profile.period]),
        about: document.getElementById("about").textContent, several: profile.harts.length > 1};""")
    rows = [line.split("\t") for line in found["copy"].split("\r\n")]
    head = ["level", "scope", "inclusive", "inclusive %", "exclusive", "exclusive %"]
    same(f"{name}: the head of a copy", rows[0], head + (["imbalance"] if found["several"] else []))
    same(f"{name}: a copy's rows", [[int(row[0]), row[1], int(row[2])] for row in rows[1:-1]], found["rows"])
    same(f"{name}: a CSV file's rows", found["csv"].count("\r\n"), len(found["rows"]) + 1)
    same(f"{name}: a CSV file's name", found["name"].endswith(".flat.csv"), True)


WRONG = [
    "#zoom=99999999&node=x&row=[[&table=no&least=-1&filters=fp99999.zz&hart=77&sort=no.x&source=9.9&panes=a.b",
    "#%&==",
]


def look_at_link(window, name, page):
    """A link opens as what it was taken of."""
    window.run("""
      view.setHart(0);
      view.setGraph("scope");
      view.setOrder(true);
      view.setLeast(1);
      view.setSearch(profile.procedures[0]);
      const {graph} = view.icicle;
      view.icicle.zoom(graph.first[graph.count]);
      view.setTable("flat");
      view.grid.sortBy("exclusive");
      view.grid.choose(Math.min(3, view.grid.rows.length - 1));""")
    window.run(LATER)
    wanted, fragment = window.run(STATE), window.run("return location.hash;")
    if not fragment.startswith("#"):
        complain(f"{name}: no fragment")
    window.open(page, fragment=fragment)
    same(f"{name}: a link's state", window.run(STATE), wanted)
    other = "#table=callers"
    window.run(f"location.hash = {json.dumps(other)};")
    window.run(LATER)
    same(f"{name}: another fragment", window.run("return [view.kind, view.shown.hart];"), ["callers", -1])
    for wrong in WRONG:
        window.open(page, fragment=wrong)
        found = window.run("return [view.kind, view.shown.filters.length];")
        same(f"{name}: a fragment without sense", found, ["top", 0])
