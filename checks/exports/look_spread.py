"""How values are spread over harts: the page's bars and its column of imbalances, beside plain counts of the samples."""
import math
import statistics
from fractions import Fraction

import databases
from exporter import same

SPREADS = """
const found = [];
for (let node = 0; node < profile.count; node++) {
  const values = view.shown.spreads.of([node]), summary = summaryOf(values);
  found.push([values, summary.harts, summary.least, summary.greatest, summary.deviation, hundredths(summary.imbalance)]);
}
return found;
"""
BARS = """
const text = id => document.getElementById(id).textContent, bars = [...document.querySelectorAll("#bars > div")];
return {name: text("spread-name"), figures: text("spread-figures"), titles: bars.map(bar => bar.title),
  heights: bars.map(bar => bar.getBoundingClientRect().height), shown: !document.getElementById("spread").hidden};
"""
SORTED = """
const found = {};
for (const kind of ["top", "callers", "callees", "flat"]) {
  view.setTable(kind);
  view.grid.foldAll();
  view.grid.sortBy("imbalance", true);
  const cells = [...document.querySelectorAll("#rows [role=row]")].map(row => row.lastElementChild.textContent);
  found[kind] = [view.grid.rows.map(row => hundredths(imbalanceOf(row))), cells];
}
view.grid.sortBy("inclusive", true);
view.setTable("top");
return found;
"""


def hundredths(some):
    """The greatest over the mean, rounded down."""
    value = math.floor(100 * max(some) / Fraction(sum(some), len(some)))
    return f"{value // 100}.{value % 100:02}"


def inclusive_of(profile, harts):
    """Each node's inclusive samples, hart by hart."""
    columns = databases.values(databases.tree(profile), harts)
    return [list(values) for values in zip(*(column[2] for column in columns))]


def look_at_spread(window, name, page, profile, period, harts):
    window.open(page)
    wanted = inclusive_of(profile, harts)
    found = window.run(SPREADS)
    same(f"{name}: samples of each hart", [node[0] for node in found], wanted)
    for values, (_, count, least, greatest, deviation, imbalance) in zip(wanted, found):
        some = [value for value in values if value]
        same(f"{name}: a summary of {values}", [count, least, greatest, round(deviation, 6), imbalance],
             [len(some), min(some), max(some), round(statistics.pstdev(some), 6), hundredths(some)])
    if harts > 1:
        look_at_bars(window, name, wanted, period)
        look_at_sorting(window, name)
    else:
        same(f"{name}: bars of one hart", window.run(BARS)["shown"], False)
        same(f"{name}: columns of one hart", window.run("return view.grid.columns.includes('imbalance');"), False)


def look_at_bars(window, name, wanted, period):
    """The bars are those of the row that is selected, whichever hart the tables have."""
    for node in range(0, len(wanted), 1 + len(wanted) // 8):
        way = window.run(f"""
          view.setHart({wanted[node].index(max(wanted[node]))});
          const way = [];
          for (let up = {node}; up >= 0; up = profile.parent[up]) way.unshift(up);
          view.grid.follow(way, true);
          return view.grid.rows[view.grid.at].node;""")
        same(f"{name}: the row of node {node}", way, node)
        bars, some = window.run(BARS), [value for value in wanted[node] if value]
        mean = Fraction(sum(some) * period, len(some))
        deviation = math.floor(statistics.pstdev(some) * period)
        same(f"{name}: figures of node {node}", bars["figures"], " · ".join([
            f"inclusive in {len(some)} of {len(wanted[node])} harts", f"least {min(some) * period:,}",
            f"mean {math.floor(mean):,}", f"greatest {max(some) * period:,}", f"standard deviation {deviation:,}",
            f"imbalance {hundredths(some)}"]))
        titles = [f"hart {hart}: {value * period:,}" for hart, value in enumerate(wanted[node])]
        same(f"{name}: bars of node {node}", bars["titles"], titles)
        high = max(bars["heights"])
        same(f"{name}: heights of the bars of node {node}", [round(20 * height / high) for height in bars["heights"]],
             [round(20 * value / max(some)) for value in wanted[node]])
    window.run("view.setHart(-1);")
    window.click_on("#harts")
    same(f"{name}: bars are hidden", window.run(BARS)["shown"], False)
    window.click_on("#harts")
    same(f"{name}: bars are shown", window.run(BARS)["shown"], True)


def look_at_sorting(window, name):
    for kind, (rows, cells) in window.run(SORTED).items():
        same(f"{name}: the {kind} table sorted by imbalance", rows, sorted(rows, key=float, reverse=True))
        same(f"{name}: the {kind} table's imbalances", cells, rows[: len(cells)])
