"""What a screen reader has of the page, by Chromium's accessibility tree: roles, names, states, and rows read with what
their figures are."""
import re

import databases
from exporter import complain, same
from look_spread import hundredths, inclusive_of

# What Tab comes to, and what has a name to be called by.
CONTROLS = ["hart", "by-procedure", "by-scope", "by-cost", "least", "search", "scroll", "edge", "tab-top", "hot",
            "fold", "focus-procedure", "hide-procedure", "focus-file", "hide-file", "copy", "csv", "sources", "grid",
            "head", "side-edge", "file", "costly-previous", "costly-next", "lines"]
NAMED = [
    ("heading", None), ("region", "Icicle graph"), ("region", "Tables"), ("region", "Source"), ("combobox", "Hart"),
    ("group", "What the graph shows"), ("button", "Procedures"), ("button", "All scopes"),
    ("button", "Costliest first"),
    ("slider", "At least"), ("searchbox", "Search procedures and places"), ("navigation", "Zoomed to"),
    ("application", "Calling context tree as an icicle graph. The top-down table below has the same contents."),
    ("separator", "Height of the graph"), ("separator", "Width of the table"), ("tablist", "Table"),
    ("tab", "Top-down"),
    ("tab", "Callers"), ("tab", "Callees"), ("tab", "Sandwich"), ("tab", "Flat"), ("button", "Hot path"),
    ("button", "Fold all"), ("group", "The selected row's procedure or file"), ("button", "Focus"), ("button", "Hide"),
    ("button", "Focus file"), ("button", "Hide file"), ("button", "Copy"), ("button", "CSV"), ("button", "Source"),
    ("treegrid", "Top-down table: each procedure below the place that called it"), ("columnheader", "Scope"),
    ("columnheader", "Inclusive"), ("columnheader", "Inclusive, percent"), ("columnheader", "Frame"),
    ("columnheader", "Exclusive"), ("combobox", "File"), ("button", "Previous line with samples"),
    ("button", "Next line with samples"), ("grid", "Lines of the source with their cost"), ("columnheader", "Line"),
    ("columnheader", "Text"), ("columnheader", "Exclusive, percent"),
]
OPERATED = {"button", "combobox", "slider", "searchbox", "application", "separator", "tab", "treegrid", "grid", "row",
            "columnheader", "heading", "region", "navigation", "group", "tablist"}
# Signs that would be read as their names.
SIGNS = re.compile("[▾▴▸✕…]")
FOCUSED = """
const element = document.activeElement;
return element === document.body ? "" : element.id || element.closest("[id]").id;
"""


def look_at_keys(window, name, page):
    """Tab reaches each control, and each has a name."""
    window.open(page)
    window.run("view.setSource(true); document.body.focus();")
    reached = []
    for _ in range(60):
        window.press("Tab")
        found = window.run(FOCUSED)
        if not found or found == (reached[0] if reached else None):
            break
        reached.append(found)
    same(f"{name}: controls that Tab doesn't reach", [each for each in CONTROLS if each not in reached], [])
    for role, label in window.named():
        if role != "RootWebArea" and (not label or SIGNS.search(label)):
            complain(f"{name}: a {role} with the focus is called {label!r}")


def accessible(window):
    """The nodes of the accessibility tree that aren't ignored, in order: role, name, properties."""
    found = []
    for node in window.ask("Accessibility.getFullAXTree")["nodes"]:
        if not node.get("ignored"):
            properties = {each["name"]: each["value"].get("value") for each in node.get("properties", [])}
            found.append((node["role"]["value"], node.get("name", {}).get("value", ""), properties))
    return found


def look_at_spoken(window, page, profile, period):
    """A page without sources shown wide, so that its table has all columns; its profile is small enough to be seen."""
    window.open(page, (1800, 1400), fragment="#zoom=1&source=0.84")
    window.run("document.getElementById('grid').focus();")
    nodes = accessible(window)
    found = {(role, name) for role, name, _ in nodes} | {(role, None) for role, _, _ in nodes}
    same("roles and names that aren't there", [each for each in NAMED if each not in found], [])
    for role, name, _ in nodes:
        if role in OPERATED and (not name or SIGNS.search(name)):
            complain(f"a {role} is called {name!r}")
    look_at_table(nodes, profile, period)
    states = {(role, name): properties for role, name, properties in nodes}
    same("the table's tab", states["tab", "Top-down"]["selected"], True)
    same("the graph's kind", states["button", "Procedures"]["pressed"], "true")
    focused = [role for role, _, properties in nodes if properties.get("focused")]
    same("what has the focus", focused[-1:], ["treegrid"])
    lines = [(name, properties) for role, name, properties in nodes if role == "row" and name.startswith("line ")]
    chosen = [name.split(",")[0] for name, properties in lines if properties.get("selected")]
    same("the selected line", chosen, ["line 84"])
    look_at_live(window)


def look_at_table(nodes, profile, period):
    """Each row of the table with its level, as plain counts of the samples have it."""
    wanted, exclusive = [], {}
    tree = databases.tree([(0, count, path) for _, count, path in profile])
    for node in tree:
        exclusive[node.number] = node.exclusive.get(0, 0) * period
    harts = inclusive_of(profile, 1 + max(hart for hart, _, _ in profile))
    for node, row, values in zip(tree, databases.top_down(profile, period), harts):
        all_, share, frame, indent, label = re.match(r" *(\d+) +(\S+) +(\d+)  ((?:  )*)(.*)$", row).groups()
        figures = f"inclusive {int(all_):,}, {share} percent, frame {int(frame):,}"
        figures += f", exclusive {exclusive[node.number]:,}, imbalance {hundredths([v for v in values if v])}"
        wanted.append((len(indent) // 2 + 1, f"{label}, {figures}"))
    rows = [(properties["level"], name) for role, name, properties in nodes
            if role == "row" and properties.get("level")]
    same("rows that are no scope's", sorted(set(rows) - set(wanted)), [])
    if len(rows) < len(wanted) // 2:
        complain(f"only {len(rows)} of {len(wanted)} rows are in the accessibility tree")


def look_at_live(window):
    """What is said without the focus: what a search finds, and the box that keys select."""
    window.run("document.getElementById('scroll').focus();")
    window.press("ArrowDown")
    window.run("view.setSearch('evaluate');")
    said = window.run("return [...document.querySelectorAll('[aria-live]')].map(element => element.textContent);")
    wanted = [r"\d+ matches · \d+\.\d %", r".+, level \d+, \d+\.\d percent, [\d,]+ retired instructions"]
    for text in wanted:
        if not any(re.fullmatch(text, found) for found in said):
            complain(f"nothing like {text} is said: {said}")
