// Unpacks the export and opens the page.

async function unpacked(id) {
  const element = document.getElementById(id), text = element.textContent;
  element.remove();
  const packed = Uint8Array.from(atob(text), letter => letter.charCodeAt(0));
  return new Response(new Blob([packed]).stream().pipeThrough(new DecompressionStream("deflate")));
}

// The readers of what the exporter writes, by its version. Version 1 has one event, and versions 1 and 2 have one run.
const RETIRED = {name: "retired", unit: "retired instructions"};
const READERS = {
  1: (names, buffer) => READERS[2]({...names, events: [{...RETIRED, period: names.period}], event: 0}, buffer),
  2: (names, buffer) => READERS[3]({...names, runs: names.harts.map(() => 0)}, buffer),
  3: (names, buffer) => Profile.unpacked(names, buffer),
};

async function main() {
  const names = JSON.parse(document.getElementById("names").textContent);
  const [columns, texts, trace] = [await unpacked("columns"), await unpacked("texts"), await unpacked("trace")];
  const base = READERS[names.version](names, await columns.arrayBuffer());
  const timed = names.trace ? new Trace(names.trace, await trace.arrayBuffer(), base) : null;
  view = new View(base, await texts.json(), timed);
  view.link.restore();
  view.isReady = true;
  return view;
}

// For checks: when the page is ready, and the rows of a table with all that is below them.
const hpc = window.hpc = {
  ready: main().catch(error => {
    const problem = document.getElementById("problem");
    problem.hidden = false;
    problem.textContent = typeof DecompressionStream === "undefined"
      ? "This browser is too old for this page (it lacks DecompressionStream)."
      : `This page could not be shown: ${error.message}`;
    throw error;
  }),
  // Rows of level, inclusive, share, frame or exclusive, and name, in the order of the printed tables, to a depth.
  table(kind, depth = Infinity) {
    const rows = [], value = kind === "top" ? "frame" : "exclusive", total = view.samples.total;
    const byCost = (a, b) => b.inclusive - a.inclusive || inOrder(a, b);
    const sorted = list => list.sort(kind === "top" || kind === "sandwich" ? inOrder : byCost).reverse();
    const waiting = sorted(TABLES[kind].make(view.samples)).map(row => [0, row]);
    while (waiting.length) {
      const [level, row] = waiting.pop();
      const [all, own] = [row.inclusive, row[value]].map(samples => samples * view.shown.period);
      rows.push([level, all, share(row.inclusive, total), own, row.name]);
      if (row.has && level < depth) for (const below of sorted(row.make())) waiting.push([level + 1, below]);
    }
    return rows;
  },
};
