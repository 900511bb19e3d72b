"""The timeline of a database's page, beside plain slices of the same samples: its pixels at each depth and zoom, the
pointer, clicks, keys alone, what is read aloud, and links."""
import math

import browser
import databases
from exporter import complain, exported, same
from look_contrasts import look_at_contrasts
from look_driven import tab_to
from look_spoken import SIGNS, accessible
from look_traces import write_files
from profiles import PROGRAMS
from traced import Traced

# Sixty-four harts, each with a front of the recursion's samples.
MANY = [(hart, 1 + hart % 3, path) for hart in range(64) for _, _, path in databases.recursive()[hart % 5 :: 3]]
PROFILES = {"calls": PROGRAMS["calls"], "barrier": PROGRAMS["barrier"], "areas": PROGRAMS["areas"],
            "inlined": databases.PROFILES["inlined"], "recursive": databases.PROFILES["recursive"],
            "harts": (MANY, 31, 64)}
DRAWN = "await new Promise(done => requestAnimationFrame(() => requestAnimationFrame(done)));"

# The colours of some pixels of each row, a line below its top, and those of procedures.
PIXELS = DRAWN + """
const {timeline} = view, {image, gutter, thick} = timeline, pen = image.getContext("2d");
const ratio = devicePixelRatio || 1, left = Math.round(gutter * ratio), width = image.width - left, rows = [];
for (let hart = 0; hart < timeline.slices.length; hart++) {
  const line = pen.getImageData(left, Math.round(hart * thick * ratio), width, 1).data;
  rows.push(Array.from({length: width}, (_, k) => line[4 * k + 3] ? hex([...line.slice(4 * k, 4 * k + 3)]) : ""));
}
const colors = profile.procedures.map((name, of) => [name, colorOf(colorKey(PROC, of))]);
return {from: timeline.from, to: timeline.to, rows, colors, depth: timeline.depth, deepest: timeline.trace.deepest};
"""
STATE = """
const {timeline, icicle, grid} = view, text = id => document.getElementById(id).textContent;
return {detail: text("time-detail"), said: text("time-spoken"), range: text("time-range"), depth: timeline.depth,
  from: timeline.from, to: timeline.to, hovered: icicle.hovered < 0 ? "" : icicle.graph.label(icicle.hovered),
  selected: icicle.graph.label(icicle.selected), row: grid.rows[grid.at] ? grid.rows[grid.at].name : "",
  key: [...document.querySelectorAll("#time-key > span")].map(item => item.textContent)};
"""
AREA = """
const {left, top, width} = document.getElementById("time-canvas").getBoundingClientRect();
return [left, top, width];
"""


def look_at_timelines(window, folder):
    """Gives the pages."""
    for name, (profile, period, harts) in PROFILES.items():
        traced = Traced(profile, period, harts, rest=len(name), seed=len(name))
        trace, listing = write_files(folder, f"{name} page", traced)
        database, page = folder / f"{name}.timeline.db", folder / f"{name}.timeline.html"
        database.write_bytes(databases.database(profile, period, harts))
        exported(database, "html", "--trace", trace, "--struct", listing, "-o", page)
        if window:
            look_at_pixels(window, name, page, traced)
            look_at_contrasts(window, f"{name}, timeline", page, {})
            look_at_colors(window, name, page)
        if window and name in ("calls", "barrier"):
            look_at_pointer(window, name, page, traced)
            look_at_keys(window, name, page, traced)
        yield page
    if window:
        look_at_moves(window, folder / "calls.timeline.html", Traced(*PROFILES["calls"], rest=5, seed=5))
        look_at_spoken_timeline(window, folder / "barrier.timeline.html")
        look_at_filtered(window, folder / "calls.timeline.html")
        look_at_chosen_harts(window, folder)


def procedure(traced, hart, instruction, depth):
    found = traced.procedures_at(hart, instruction)
    return found and found[:depth][-1]


# ---- what is drawn


def look_at_pixels(window, name, page, traced):
    """Each pixel has the colour of what its hart did at the instruction at its right edge: whole, and zoomed in."""
    for size in (browser.DESKTOP, browser.PHONE):
        window.open(page, size)
        deepest = window.run("return view.timeline.trace.deepest;")
        most = max(len([1 for _, which in frames if which[0] == "proc"]) for hart in traced.shown for frames in hart)
        same(f"{name}: the deepest procedure", deepest, most)
        for depth in {1, 2, 3, deepest}:
            span = max(traced.retired)
            for from_, to in ((0, span), (span / 3, span / 2), (span / 2, span / 2 + 20)):
                window.run(f"view.timeline.setDepth({depth}); view.timeline.show({from_}, {to});")
                compare_pixels(f"{name}, {size[0]} wide, depth {depth}", traced, window.run(PIXELS))


def compare_pixels(name, traced, found):
    colors, wrong = dict(found["colors"]), []
    for hart, row in enumerate(found["rows"]):
        scale = (found["to"] - found["from"]) / len(row)
        for pixel, color in enumerate(row):
            edge = found["from"] + (pixel + 1) * scale
            # Where the edge is a whole number but for rounding, both are right.
            instructions = {math.ceil(edge - 1e-6), math.ceil(edge + 1e-6)}
            wanted = {procedure(traced, hart, instruction, found["depth"]) for instruction in instructions}
            if color not in {colors[each] if each else "" for each in wanted}:
                wrong.append((hart, pixel, color, wanted))
    same(f"{name}, from {found['from']:.0f} to {found['to']:.0f}: pixels", wrong[:3], [])


def look_at_colors(window, name, page):
    """What is written on a slice, and beside it, can be read."""
    for scheme in (browser.LIGHT, browser.DARK):
        window.open(page, scheme=scheme)
        low = window.run("""
          const ink = themeColor("ink"), card = themeColor("card"), {base, used} = view.timeline.trace;
          const boxes = used.map(node => colorOf(colorKey(PROC, base.operand[node])));
          const found = [...boxes.map(box => contrast(box, ink)), contrast(card, themeColor("soft"))];
          return found.filter(each => each < 7);""")
        same(f"{name}: contrasts in the timeline, {scheme}", low, [])


# ---- the pointer


def place_of(window, traced, moment, hart):
    """Where an instruction of a hart is on the screen, of a timeline that shows all."""
    left, top, width = window.run(AREA)
    gutter, thick = window.run("return [view.timeline.gutter, view.timeline.thick];")
    return left + gutter + (width - gutter) * moment / max(traced.retired), top + (hart + 0.5) * thick


def drawn_slices(traced, hart, depth):
    """Where each slice of a hart begins and ends at a depth, and its procedures down to there."""
    found = []
    for start, end, frames in traced.slices(hart):
        # An inlined call has no other name for its procedures: what tells slices apart is all that is above.
        count, cut = 0, []
        for name, which in frames:
            count += which[0] == "proc"
            if count > depth:
                break
            cut.append((name, which))
        while cut[-1][1][0] not in ("proc", "root"):
            cut.pop()
        if found and found[-1][2] == cut:
            found[-1] = found[-1][0], end, cut
        else:
            found.append((start, end, cut))
    return [(start, end, [name for name, which in cut if which[0] == "proc"]) for start, end, cut in found]


def described(hart, slice_):
    start, end, names = slice_
    return f"hart {hart}, instructions {start + 1:,} to {end:,}: {names[-1]}, depth {len(names)}"


def look_at_pointer(window, name, page, traced):
    window.open(page)
    depth = window.run("return view.timeline.depth;")
    for hart in range(len(traced.retired)):
        for slice_ in drawn_slices(traced, hart, depth):
            if (slice_[1] - slice_[0]) * 1100 / max(traced.retired) < 4:
                continue
            middle = place_of(window, traced, (slice_[0] + slice_[1]) / 2, hart)
            window.mouse("mouseMoved", *middle)
            state = window.run(STATE)
            found, wanted = (state["detail"], state["hovered"]), (described(hart, slice_), slice_[2][-1])
            same(f"{name}: at the pointer", found, wanted)
            window.click(*middle)
            state = window.run(STATE)
            same(f"{name}: a click selects", (state["selected"], state["row"]), (slice_[2][-1],) * 2)
            same(f"{name}: a click says", state["said"], described(hart, slice_) + ", selected")
    nothing = place_of(window, traced, 0, 0)
    window.mouse("mouseMoved", *nothing)
    same(f"{name}: the pointer before the first sample", window.run(STATE)["hovered"], "")
    ended = min(range(len(traced.retired)), key=traced.retired.__getitem__)
    window.mouse("mouseMoved", *place_of(window, traced, (traced.retired[ended] + max(traced.retired)) / 2, ended))
    same(f"{name}: the pointer behind a hart's end", window.run(STATE)["hovered"], "")


# ---- keys alone


def look_at_keys(window, name, page, traced):
    """Arrow keys come to each slice of each hart, and each is read; Enter selects it."""
    window.open(page)
    depth = window.run("return view.timeline.depth;")
    if not tab_to(window, "#time-area"):
        complain(f"{name}: Tab doesn't reach the timeline")
    for hart in range(len(traced.retired)):
        slices = drawn_slices(traced, hart, depth)
        window.press(*(["ArrowDown"] * (hart > 0)), "Home")
        for slice_ in slices:
            state = window.run(STATE)
            same(f"{name}: a slice by keys", (state["said"], state["detail"]), (described(hart, slice_),) * 2)
            window.press("Enter")
            same(f"{name}: Enter selects", window.run(STATE)["row"], slice_[2][-1])
            window.press("ArrowRight")
        same(f"{name}: behind the last slice", window.run(STATE)["said"], described(hart, slices[-1]))
        window.press("ArrowLeft")
        same(f"{name}: the slice before", window.run(STATE)["said"], described(hart, slices[max(len(slices) - 2, 0)]))
        window.press("End")
        same(f"{name}: the last slice", window.run(STATE)["said"], described(hart, slices[-1]))
    window.press("ArrowUp")
    at = f"hart {len(traced.retired) - 2}, "
    same(f"{name}: the hart above", window.run(STATE)["said"][: len(at)], at)


def look_at_moves(window, page, traced):
    """Zoom and depth by buttons, keys, the wheel and the mouse; the address keeps both."""
    span = max(traced.retired)
    window.open(page)
    same("the timeline begins", window.run(STATE)["range"], f"instructions 1 to {span:,}")

    def stretch():
        state = window.run(STATE)
        return state["from"], state["to"]

    for selector, key in (("#time-in", "+"), ("#time-in", "=")):
        window.open(page)
        tab_to(window, "#time-area")
        window.press(key)
        by_key = stretch()
        window.open(page)
        window.click_on(selector)
        same(f"{selector} and {key}", stretch(), by_key)
        same(f"{selector} is nearer", by_key[1] - by_key[0] < span, True)
    window.click_on("#time-out")
    same("zoomed out again", stretch(), (0, span))
    window.click_on("#time-in")
    window.click_on("#time-in")
    inner = stretch()
    tab_to(window, "#time-area")
    window.press("PageDown")
    same("Page Down goes on", stretch()[0] > inner[0], True)
    state = window.run(DRAWN + STATE)
    same("what keys show is read", state["said"], state["range"])
    window.press("PageUp", "PageUp", "PageUp")
    same("Page Up comes to the start", stretch()[0], 0)
    window.press("Escape")
    same("Escape shows all", stretch(), (0, span))
    is_whole = window.run("return view.icicle.root === view.icicle.graph.count;")
    same("Escape in the timeline leaves the graph", is_whole, True)
    window.click_on("#time-in")
    window.click_on("#time-all")
    same("All shows all", stretch(), (0, span))
    look_at_wheel(window, traced, stretch)
    look_at_link(window, page)


def look_at_wheel(window, traced, stretch):
    span, moment = max(traced.retired), max(traced.retired) / 3
    x, y = place_of(window, traced, moment, 0)
    window.ask("Input.dispatchMouseEvent", type="mouseWheel", x=x, y=y, deltaX=0, deltaY=-100)
    from_, to = stretch()
    same("the wheel zooms at the pointer", round((moment - from_) / (to - from_), 2), round(1 / 3, 2))
    window.ask("Input.dispatchMouseEvent", type="mouseWheel", x=x, y=y, deltaX=60, deltaY=0)
    same("the wheel sideways moves", stretch()[0] > from_, True)
    window.ask("Input.dispatchMouseEvent", type="mouseWheel", x=x, y=y, deltaX=0, deltaY=800)
    same("the wheel zooms out", stretch(), (0, span))
    from_, to = (place_of(window, traced, span * share, 0) for share in (0.25, 0.75))
    window.mouse("mouseMoved", *from_)
    window.mouse("mousePressed", *from_)
    for share in (0.3, 0.6, 1):
        window.mouse("mouseMoved", from_[0] + share * (to[0] - from_[0]), to[1])
    window.mouse("mouseReleased", *to)
    same("pulling zooms to what was passed", [round(each / span, 2) for each in stretch()], [0.25, 0.75])
    window.run("document.getElementById('depth').focus();")
    before = window.run(STATE)["depth"]
    window.press("ArrowUp")
    same("a depth by keys", window.run(STATE)["depth"], before - 1)


def look_at_link(window, page):
    """Depth and instructions come again by the address."""
    window.run("view.timeline.setDepth(1); view.timeline.show(10, 40);")
    window.run("await new Promise(done => setTimeout(done, 300));")
    wanted, fragment = window.run(DRAWN + STATE), window.run("return location.hash;")
    window.open(page, fragment=fragment)
    found = window.run(DRAWN + STATE)
    for part in ("depth", "from", "to", "range", "key"):
        same(f"the {part} of the link {fragment}", found[part], wanted[part])
    window.open(page, fragment="#depth=99&time=5.x")
    same("a wrong link", window.run("return [view.timeline.depth, view.timeline.from];"),
         [window.run("return view.timeline.trace.deepest;"), 0])


# ---- what is read aloud, filters, harts

NAMED = [
    ("region", "Timeline"), ("combobox", "Depth"), ("group", "The instructions that are shown"), ("button", "Zoom in"),
    ("button", "Zoom out"), ("button", "All"), ("list", "Procedures that are shown"), ("listitem", None),
    ("application", "What each hart did, by its retired instructions. The tables have the same samples."),
]


def look_at_spoken_timeline(window, page):
    window.open(page)
    nodes = accessible(window)
    found = {(role, name) for role, name, _ in nodes} | {(role, None) for role, _, _ in nodes}
    same("the timeline's roles and names that aren't there", [each for each in NAMED if each not in found], [])
    for role, label in window.named():
        if role != "RootWebArea" and (not label or SIGNS.search(label)):
            complain(f"the timeline's page: a {role} with the focus is called {label!r}")
    keys = window.run("return document.getElementById('time-area').getAttribute('aria-describedby');")
    told = window.run(f"return document.getElementById('{keys}').textContent;")
    same("the timeline tells its keys", "Enter selects" in told, True)
    for control in ("#depth", "#time-in", "#time-out", "#time-all", "#time-area"):
        if not tab_to(window, control):
            complain(f"Tab doesn't reach {control}")


def look_at_filtered(window, page):
    """What filters hide is shown in the timeline, and isn't selected."""
    window.open(page)
    window.run("""
      const of = profile.procedures.indexOf("evaluate");
      view.setFilters([{what: "hide", kind: "procedure", of}]);
      view.timeline.setDepth(2);
      const {ends, nodes} = view.timeline.slices[0], {base} = view.timeline.trace;
      const place = [...nodes].findIndex(node => base.operand[node] === of);
      view.timeline.choose(view.timeline.sliceAt(0, ends[place] - 1));""")
    state = window.run(STATE)
    same("a click on what is hidden", (state["said"].split(": ", 1)[1], state["selected"] == "evaluate"),
         ("evaluate, depth 2: no samples of it are shown", False))


def look_at_chosen_harts(window, folder):
    """A page of some harts has their rows alone."""
    page = folder / "chosen.html"
    files = [folder / f"barrier page.{kind}" for kind in ("trace", "struct")]
    words = "--trace", files[0], "--struct", files[1], "--hart", "1", "--hart", "3"
    exported(folder / "barrier.timeline.db", "html", *words, "-o", page)
    window.open(page)
    traced = Traced(*PROFILES["barrier"], rest=7, seed=7)
    same("rows of chosen harts", window.run("return view.timeline.trace.harts.map(hart => hart.retired);"),
         [traced.retired[1], traced.retired[3]])
    window.run("document.getElementById('time-area').focus();")
    window.press("ArrowDown")
    same("the name of a chosen hart", window.run(STATE)["said"][:7], "hart 3,")
