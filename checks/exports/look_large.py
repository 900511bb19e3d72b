"""The page of 400,000 nodes, beside plain counts of the same nodes."""
import json
from collections import defaultdict

import databases
from exporter import exported, same

NODES, HARTS, PERIOD, OF = 400000, 4, 997, "procedure_77"
SEEN = """
const {element, at} = view.grid, row = document.getElementById(`row-${at}`).getBoundingClientRect();
const outer = element.getBoundingClientRect();
return [at > 0, row.top >= outer.top && row.bottom <= outer.bottom + 1];
"""
STATE = """
const {icicle, grid, search, shown} = view;
return [icicle.root, icicle.selected, view.kind, grid.sort, grid.orders(grid.at), search.words, shown.hart, view.percent];
"""


class Counts:
    """Inclusive samples of each node, and those that the frames of each procedure have."""

    def __init__(self, nodes, hart=None):
        own = [[count for owner, count in node.exclusive.items() if hart in (None, owner)] for node in nodes]
        self.inclusive = list(map(sum, own))
        self.frames = defaultdict(int)
        procedure_of = []
        for node in nodes:
            is_called = node.scope[0] == "proc"
            above = procedure_of[node.parent.number] if node.parent.number is not None else None
            procedure_of.append(node.scope[1][2] if is_called else above)
            self.frames[procedure_of[-1]] += self.inclusive[node.number]
        for node in reversed(nodes):
            if node.parent.number is not None:
                self.inclusive[node.parent.number] += self.inclusive[node.number]
        self.nodes = nodes

    def within(self, kinds, name):
        """The samples at or below nodes of these kinds with this procedure, each once."""
        total, is_within = 0, []
        for node in self.nodes:
            above = node.parent.number is not None and is_within[node.parent.number]
            is_it = node.scope[0] in kinds and node.scope[1][2].decode() == name
            total += self.inclusive[node.number] if is_it and not above else 0
            is_within.append(above or is_it)
        return total


def look_at_large(window, folder):
    nodes = databases.large(NODES, HARTS)
    database, page = folder / "nodes.db", folder / "nodes.html"
    database.write_bytes(databases.written(nodes, databases.retired_every(PERIOD), HARTS))
    exported(database, "html", "-o", page)
    counts = Counts(nodes)
    window.open(page)
    same("400,000 nodes: nodes and samples", window.run("return [profile.count, view.samples.total];"),
         [len(nodes), counts.inclusive[0]])
    window.click_on("#hot")
    same("400,000 nodes: the first click on the hot path", window.run(SEEN), [True, True])
    look_at_nodes(window, counts)
    look_at_filters(window, counts)
    look_at_hart(window, nodes)
    look_at_link(window, page)
    return page


def look_at_nodes(window, counts):
    found = window.run("return Array.from(view.samples.inclusive);")
    same("400,000 nodes: inclusive samples", found, counts.inclusive)
    rows = window.run("return hpc.table('callers', 0).map(row => [row[4], row[1], row[3]]);")
    some = {name: (all_, own) for name, all_, own in rows if name.endswith("7")}
    wanted = {name: (counts.within(["proc"], name) * PERIOD, counts.frames[name.encode()] * PERIOD) for name in some}
    same("400,000 nodes: procedures", some, wanted)
    for column in ("inclusive", "exclusive"):
        values = window.run(f"view.setTable('callers'); view.grid.sortBy('{column}', true);"
                            f"return view.grid.rows.map(row => row.{column});")
        same(f"400,000 nodes: sorted by {column}", values, sorted(values, reverse=True))
    window.run("view.setSearch('/^" + OF + "$/');")
    same("400,000 nodes: a search", window.run("return view.found.samples;"), counts.within(["proc"], OF))


def look_at_filters(window, counts):
    of = window.run(f"return profile.procedures.indexOf('{OF}');")
    window.run("view.setSearch(''); view.setTable('callers');")
    window.run(f"view.grid.follow([{of}], true); view.grid.element.focus();")
    window.press("f")
    same("400,000 nodes: focus", window.run("return view.samples.total;"), counts.within(["proc", "inline"], OF))
    window.click_on("#filters button")
    window.run(f"view.grid.follow([{of}], true); view.grid.element.focus();")
    window.press("h")
    found = window.run(f"return [view.samples.total, profile.operand.includes({of})];")
    same("400,000 nodes: hide", found, [counts.inclusive[0], False])
    window.click_on("#filters button")


def look_at_hart(window, nodes):
    window.run("document.getElementById('hart').focus();")
    window.press("ArrowDown")
    same("400,000 nodes: a hart", window.run("return Array.from(view.samples.inclusive);"), Counts(nodes, 0).inclusive)


def look_at_link(window, page):
    """Zoom, table, sorting, search, hart, share and the selected row come again."""
    window.run("""
      view.setLeast(0.25);
      view.setSearch("procedure_7");
      view.nextMatch(1);
      view.icicle.zoom(view.icicle.selected);
      view.setTable("flat");
      view.grid.sortBy("exclusive", true);
      view.grid.choose(2);
      await new Promise(done => setTimeout(done, 400));""")
    wanted, fragment = window.run(STATE), window.run("return location.hash;")
    window.open(page, fragment=fragment)
    same(f"400,000 nodes: the link {json.dumps(fragment)}", window.run(STATE), wanted)
