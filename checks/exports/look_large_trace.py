"""How long the page of a trace of 1,048,576 samples takes to open and to zoom: 64 harts, and a call path that is
another one at nearly each sample."""
import random
from collections import Counter

import databases
from exporter import exported
from traced import ENTRY, LENGTH, Traced, written

SAMPLES, HARTS, PERIOD, NODES = 1 << 20, 64, 997, 5000
# Each step is the next picture's: how long it is drawn, and how long it is until the one after it.
STEPS = """
const {timeline} = view, draws = [], gaps = [], {span} = timeline.trace;
const drawn = timeline.drawNow.bind(timeline);
timeline.drawNow = () => { const start = performance.now(); drawn(); draws.push(performance.now() - start); };
const next = () => new Promise(done => requestAnimationFrame(done));
let last = await next();
const step = async does => { does(); await next(); const now = performance.now(); gaps.push(now - last); last = now; };
for (let k = 0; k < 30; k++) await step(() => timeline.zoomBy(1 / 1.2, span / 3));
for (let k = 0; k < 30; k++) await step(() => timeline.pan(0.1));
for (let k = 0; k < 60; k++) await step(() => timeline.zoomBy(1.2, span / 3));
const start = performance.now();
timeline.setDepth(timeline.trace.deepest);
const depth = performance.now() - start, middle = list => list.sort((a, b) => a - b)[list.length >> 1];
await next();
return [`${draws.length} pictures`, `drawn in ${middle(draws).toFixed(1)} ms`,
  `at most ${Math.max(...draws).toFixed(1)} ms`, `${middle(gaps).toFixed(1)} ms from one to the next`,
  `at most ${Math.max(...gaps).toFixed(1)} ms`,
  `another depth in ${depth.toFixed(1)} ms`].join(", ");
"""


def made(folder):
    """The page, of a database whose statements are the samples' paths."""
    nodes = databases.large(NODES, 1)
    paths = [path_of(node) for node in nodes if node.scope[0] == "stmt"]
    paths = [path for path in paths if sum(scope[0] == "proc" for scope in path) <= 64]
    traced, draw = Traced([(0, 1, path) for path in paths], PERIOD, 1), random.Random(7)
    raw, columns, counts = [traced.raw(path) for path in paths], [], []
    for hart in range(HARTS):
        some = draw.choices(range(len(paths)), k=SAMPLES // HARTS - 50 * hart if hart else SAMPLES // HARTS + 100800)
        columns.append(column(raw, some))
        counts.append(Counter(some))
    for name, data in (("trace", written(LENGTH, ENTRY, PERIOD, columns)), ("struct", traced.listing)):
        (folder / f"large.{name}").write_bytes(data)
    database = folder / "large-trace.db"
    database.write_bytes(databases.written(counted(paths, counts), databases.retired_every(PERIOD), HARTS))
    return database, folder / "large.trace", folder / "large.struct"


def path_of(node):
    path = []
    while node.scope is not None:
        path.append(node.scope)
        node = node.parent
    return tuple(reversed(path))


def column(raw, some):
    """A hart that has these paths by its samples."""
    places = {}
    for path in some:
        places.setdefault(raw[path], len(places))
    return len(some) * PERIOD, [*places], [places[raw[path]] for path in some]


def counted(paths, counts):
    """The nodes of these paths, with each hart's samples."""
    top = databases.Node(None, None)
    for place, path in enumerate(paths):
        node = top
        for scope in path:
            node = databases.child(node, scope)
        for hart, own in enumerate(counts):
            databases.count_at(node, hart, own[place])
    return databases.preorder(top)


def time_trace(window, folder):
    database, trace, listing = made(folder)
    page = folder / "large-trace.html"
    exported(database, "html", "--trace", trace, "--struct", listing, "-o", page)
    sizes = [path.stat().st_size / 1e6 for path in (trace, page)]
    print(f"look: a trace of {SAMPLES} samples, {sizes[0]:.1f} MB; its page {sizes[1]:.1f} MB")
    for kind in ("perfetto", "speedscope"):
        target = folder / f"large.{kind}.json"
        exported(trace, kind, "--struct", listing, "-o", target)
        print(f"look: {kind}: {target.stat().st_size / 1e6:.1f} MB")
    if window:
        print(f"look: it opens in {window.open(page):.1f} s; {window.run(STEPS)}")
