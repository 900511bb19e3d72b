"""Each control of the page, driven as its user does: by the mouse, and by the keyboard alone."""
import browser
from exporter import complain, exported, same

MOST_TABS = 80

# What has the focus: its id, or that of what is around it.
FOCUSED = "const element = document.activeElement; return element === document.body ? '' : element.closest('[id]').id;"
IS_FOCUSED = "return document.activeElement.matches(%r);"
# Of a control: where the page begins (a fragment), the keys once it has the focus, what is asked then, and the answer.
# What Enter does, a click does too.
BUTTONS = [
    ("#by-scope", "", "view.graphKind", "scope"),
    ("#by-procedure", "#graph=scope", "view.graphKind", "procedure"),
    ("#by-cost", "", "view.isByCost", True),
    ("#filters button", "#filters=fp1", "view.shown.filters.length", 0),
    ("#path button", "#zoom=2", "view.icicle.root === view.icicle.graph.count", True),
    ("#hot", "", "view.grid.at > 0 && !view.grid.rows[view.grid.at + 1]?.open", True),
    ("#fold", "", "view.grid.rows.length", 1),
    ("#focus-procedure", "#table=callers&row=%5B1%5D", "view.shown.filters.map(filterText).join()", "fp1"),
    ("#hide-procedure", "#table=callers&row=%5B1%5D", "view.shown.filters.map(filterText).join()", "hp1"),
    ("#focus-file", "#table=callers&row=%5B1%5D", "view.shown.filters.map(filterText).join()", "ff0"),
    ("#hide-file", "#table=callers&row=%5B1%5D", "view.shown.filters.map(filterText).join()", "hf0"),
    ("#sources", "#source=off", "document.getElementById('source').hidden", False),
    ("#head [role=columnheader]:nth-child(4) button", "", "view.grid.sort.column", "frame"),
    ("#costly-next", "#source=0.84", "view.source.at", 86),
    ("#costly-previous", "#source=0.86", "view.source.at", 84),
]
KEYS = [
    ("#hart", "", ["ArrowDown"], "view.shown.hart", 0),
    ("#least", "", ["ArrowRight"] * 40, "view.percent", 4),
    ("#least", "", ["End"], "view.percent", 25),
    ("#tab-top", "", ["ArrowRight"], "view.kind", "callers"),
    ("#tab-top", "", ["ArrowLeft"], "view.kind", "flat"),
    ("#tab-top", "", ["End", "ArrowLeft"], "view.kind", "sandwich"),
    ("#tab-flat", "#table=flat", ["Home"], "view.kind", "top"),
    ("#edge", "", ["ArrowDown", "ArrowDown"], "view.edges[0].share.toFixed(2)", "0.48"),
    ("#side-edge", "", ["ArrowLeft"], "view.edges[1].share.toFixed(2)", "0.55"),
    ("#file", "#source=0.84", ["Home"], "view.source.file", 0),
    ("#search", "", [*"power", "Enter"], "view.icicle.graph.label(view.icicle.selected)", "[I] power"),
    ("#search", "", [*"power", "Escape"], "view.search.words", ""),
    ("#scroll", "", ["ArrowDown", "ArrowDown", "Enter"], "view.icicle.graph.label(view.icicle.root)", "main"),
    ("#scroll", "#zoom=1", ["Escape"], "view.icicle.graph.label(view.icicle.root)", "<thread root>"),
    ("#grid", "", ["Home", "ArrowLeft"], "view.grid.rows.length", 1),
    ("#grid", "", ["ArrowDown", "g"], "view.icicle.graph.label(view.icicle.root)", "main"),
    ("#grid", "", ["ArrowDown", "a"], "[view.kind, view.grid.rows[0].name].join()", "sandwich,main"),
    ("#grid", "", ["ArrowDown", "s"], "view.isSourceShown", False),
    ("#grid", "#zoom=1", ["Escape"], "view.icicle.graph.label(view.icicle.root)", "<thread root>"),
    ("#lines", "#source=0.84", ["n", "ArrowDown", "p"], "view.source.at", 86),
]


def tab_to(window, selector):
    """Whether the Tab key comes to this control, from the start of the page."""
    window.run("document.activeElement.blur(); getSelection().removeAllRanges();")
    for _ in range(MOST_TABS):
        window.press("Tab")
        if window.run(IS_FOCUSED % selector):
            return True
    return False


def look_at_driven(window, page):
    for selector, fragment, asked, wanted in BUTTONS:
        window.open(page, fragment=fragment)
        window.click_on(selector)
        same(f"a click on {selector}", window.run(f"return {asked};"), wanted)
        for key in ("Enter", " "):
            window.open(page, fragment=fragment)
            if not tab_to(window, selector):
                complain(f"Tab doesn't reach {selector}")
            window.press(key)
            same(f"{key or 'the space bar'} on {selector}", window.run(f"return {asked};"), wanted)
    for selector, fragment, keys, asked, wanted in KEYS:
        window.open(page, fragment=fragment)
        if not tab_to(window, selector):
            complain(f"Tab doesn't reach {selector}")
        window.press(*keys)
        same(f"{selector} by {' '.join(keys)[:40]}", window.run(f"return {asked};"), wanted)
    look_at_mouse(window, page)
    for kind in ("top", "callers", "callees", "flat"):
        look_at_rows(window, page, kind)
    look_at_boxes(window, page)
    look_at_lines(window, page)


# ---- the mouse on what is no button

MIDDLE = "const box = %s.getBoundingClientRect(); return [box.left + %s, box.top + %s];"


def point(window, element, right, down):
    return window.run(MIDDLE % (element, right, down))


def look_at_mouse(window, page):
    """Rows, lines, boxes and tabs by clicks; both edges by pulling."""
    window.open(page)
    second = point(window, "document.getElementById('row-1')", 60, 12)
    window.click(*second)
    same("a click selects a row", window.run("return view.grid.at;"), 1)
    rows = window.run("return view.grid.rows.length;")
    window.click(*second, count=2)
    same("a double click folds a row", window.run("return view.grid.rows.length;") < rows, True)
    window.click(*point(window, "document.querySelector('#row-1 .twist')", 8, 12))
    same("a click on its mark unfolds it", window.run("return view.grid.rows.length;"), rows)
    for kind in ("callers", "callees", "sandwich", "flat", "top"):
        window.click_on(f"#tab-{kind}")
        same("a click on a tab", window.run("return view.kind;"), kind)
    box = point(window, "document.getElementById('canvas')", 20, "2.5 * ROW")
    window.mouse("mouseMoved", *box)
    found = window.run("return [...document.querySelectorAll('.pointed .name')].map(name => name.title);")
    same("the pointer in the graph marks a row", found, [window.run("const {icicle} = view;"
                                                                     "return icicle.graph.label(icicle.hovered);")])
    window.click(*box)
    same("a click zooms", window.run("return view.icicle.graph.label(view.icicle.root);"), "main")
    window.mouse("mouseMoved", *point(window, "document.getElementById('row-0')", 60, 12))
    same("the pointer in the table marks a box", window.run("return view.icicle.hovered;"), 0)
    window.open(page, fragment="#source=0.84")
    window.click(*point(window, "document.getElementById('line-86')", 20, 12))
    same("a click selects a line", window.run("return [view.source.at, document.getElementById('line-86').className];"),
         [86, "line selected"])
    for size in (browser.DESKTOP, browser.TABLET, browser.PHONE, browser.LOW):
        window.open(page, size)
        pull(window, "edge", 0, 60)
        if size in (browser.DESKTOP, browser.LOW):
            pull(window, "side-edge", -60, 0)


def pull(window, edge, right, down):
    """An edge follows the pointer."""
    middle = MIDDLE % (f"document.getElementById('{edge}')", "box.width / 2", "box.height / 2")
    window.run(f"document.getElementById('{edge}').scrollIntoView({{block: 'center'}});")
    x, y = window.run(middle)
    for kind, share in (("mouseMoved", 0), ("mousePressed", 0), ("mouseMoved", 0.5), ("mouseMoved", 1)):
        window.mouse(kind, x + right * share, y + down * share)
    window.mouse("mouseReleased", x + right, y + down)
    found = window.run(middle)
    if abs(found[0] - x - right) > 8 or abs(found[1] - y - down) > 8:
        complain(f"the edge {edge} is at {found}, not {[x + right, y + down]}")


# ---- every row, box and line by arrow keys alone

AT = """
const {grid} = view, row = grid.rows[grid.at], active = document.getElementById(
  grid.element.getAttribute("aria-activedescendant"));
return [grid.at, row.level, row.name, active.getAttribute("aria-label")];
"""
NODE = "const {icicle} = view; return [icicle.selected, document.getElementById('spoken').textContent];"
DEPTH = 4


def look_at_rows(window, page, kind):
    """ArrowRight and ArrowDown come to each row of a table, to a depth."""
    window.open(page, fragment="#source=off")
    tab_to(window, "#tab-top")
    while window.run("return view.kind;") != kind:
        window.press("ArrowRight")
    tab_to(window, "#grid")
    window.run("view.grid.foldAll();")
    found, before = [], -1
    while True:
        at, level, name, spoken = window.run(AT)
        if at == before:
            break
        found.append([level, name])
        if not spoken.startswith(f"{name}, inclusive "):
            complain(f"a row {name} is read as {spoken}")
        if level < DEPTH:
            window.press("ArrowRight")
        before = at
        window.press("ArrowDown")
    wanted = window.run(f"return hpc.table('{kind}', {DEPTH}).map(row => [row[0], row[4]]);")
    same(f"rows of the {kind} table by keys", sorted(found), sorted(wanted))


def look_at_boxes(window, page):
    """Arrow keys come to each box of both graphs, and each is spoken."""
    for kind in ("procedure", "scope"):
        window.open(page, fragment=f"#graph={kind}")
        tab_to(window, "#scroll")
        found, level = set(), 0

        def go(key):
            before = window.run(NODE)[0]
            window.press(key)
            return window.run(NODE)[0] != before

        while True:
            node, spoken = window.run(NODE)
            if found and "percent" not in spoken:
                complain(f"a box is spoken as {spoken!r}")
            found.add(node)
            if go("ArrowDown"):
                level += 1
                continue
            while level and not go("ArrowRight"):
                go("ArrowUp")
                level -= 1
            if not level:
                break
        count = window.run("return view.icicle.graph.count;")
        same(f"boxes of the {kind} graph by keys", sorted(found), list(range(count + 1)))


def look_at_lines(window, page):
    """ArrowDown comes to each line of a source."""
    window.open(page, fragment="#source=0.1")
    tab_to(window, "#lines")
    lines = window.run("return view.source.lines;")
    found = [window.run("return view.source.at;")]
    while len(found) < len(lines):
        window.press("ArrowDown")
        found.append(window.run("return view.source.at;"))
    same("lines by keys", found, lines)


# ---- what is copied and saved, by the browser's own clipboard and folder


def look_at_saved(window, page, folder):
    """Copy and CSV by real clicks: the clipboard and the file have the rows that are unfolded."""
    window.open(page)
    window.ask("Browser.grantPermissions", permissions=["clipboardReadWrite", "clipboardSanitizedWrite"])
    window.ask("Browser.setDownloadBehavior", behavior="allow", downloadPath=str(folder))
    wanted = window.run("return view.grid.rows.map(row => [row.level, row.name, row.inclusive * profile.period]);")
    window.click_on("#copy")
    copied = window.run("await new Promise(done => setTimeout(done, 200)); return navigator.clipboard.readText();")
    rows = [line.split("\t") for line in copied.splitlines()[1:]]
    same("the clipboard", [[int(row[0]), row[1], int(row[2])] for row in rows], wanted)
    window.click_on("#csv")
    window.run("await new Promise(done => setTimeout(done, 800));")
    saved = [file.read_text() for file in folder.glob("*.top.csv")]
    same("the saved file", [len(text.splitlines()) for text in saved], [len(wanted) + 1])
