// How samples are spread over the harts of the page, of the event and the filters that are shown: HPCToolkit's summary
// metrics over the harts that have some. The imbalance is the greatest over the mean.

class Spreads {
  // Of each hart the nodes with samples, which ascend, and how many samples lie before each.
  constructor(shown) {
    const {base, profile, focused} = shown;
    this.harts = base.harts.map((_, hart) => {
      const own = base.exclusive([base.plane(hart, shown.event)], focused);
      const exclusive = profile.moved(own), nodes = [], before = [0];
      for (let i = 0; i < exclusive.length; i++)
        if (exclusive[i]) { nodes.push(i); before.push(before[before.length - 1] + exclusive[i]); }
      return {nodes, before};
    });
  }

  // The samples of each hart at or below these nodes, which ascend: each once.
  of(nodes) {
    return this.harts.map(({nodes: sampled, before}) => {
      let sum = 0, end = 0;
      for (const node of nodes) {
        if (node < end) continue;
        end = profile.end[node];
        sum += before[firstFrom(sampled, end)] - before[firstFrom(sampled, node)];
      }
      return sum;
    });
  }
}

// The place of the first number that isn't below this one, among numbers that ascend.
function firstFrom(numbers, least) {
  let from = 0, to = numbers.length;
  while (from < to) {
    const middle = (from + to) >> 1;
    if (numbers[middle] < least) from = middle + 1; else to = middle;
  }
  return from;
}

// All sums are below 2^53: there are at most 2^20 samples, of 2^10 harts.
function summaryOf(values) {
  const some = values.filter(value => value), {length} = some;
  if (!length) return {harts: 0, sum: 0, least: 0, mean: 0, greatest: 0, deviation: 0, imbalance: 0};
  const sum = some.reduce((sum, value) => sum + value, 0);
  const squares = some.reduce((sum, value) => sum + value * value, 0);
  const least = Math.min(...some), greatest = Math.max(...some), mean = sum / length;
  const deviation = Math.sqrt(length * squares - sum * sum) / length;
  return {harts: length, sum, least, mean, greatest, deviation, imbalance: greatest * length / sum};
}

// A row's imbalance, found when it is first asked for.
function imbalanceOf(row) {
  if (row.imbalance === undefined) row.imbalance = summaryOf(view.shown.spreads.of(row.nodes)).imbalance;
  return row.imbalance;
}

// The nodes of the whole profile that a node of the graph has.
function nodesOf(graph, selected) {
  const every = Array.from(profile.scope.keys());
  if (selected === graph.count) return every;
  return graph.nodeOf ? every.filter(node => graph.nodeOf[node] === selected) : [selected];
}

// What a hart is called, in its run where there are several.
function hartName(hart) {
  const {harts, runs} = view.shown.base;
  return hasRuns() ? `run ${runs[hart]} hart ${harts[hart]}` : `hart ${harts[hart]}`;
}

const hasRuns = () => new Set(view.shown.base.runs).size > 1;

// The sums of each run's harts, and the names of the runs.
function byRun(values) {
  const sums = new Map();
  values.forEach((value, hart) => {
    const run = view.shown.base.runs[hart];
    sums.set(run, (sums.get(run) || 0) + value);
  });
  return {values: [...sums.values()], names: [...sums.keys()].map(run => `run ${run}`)};
}

// The bars of the selected scope, a bar for each hart, or for each run. The line is at the mean.
class Bars {
  constructor() {
    this.element = document.getElementById("spread");
    this.bars = document.getElementById("bars");
    this.isSeveral = view.shown.base.harts.length > 1;
    this.button = document.getElementById("harts");
    this.button.hidden = !this.isSeveral;
    this.button.onclick = () => this.turn(this.element.hidden);
    document.getElementById("bars-choice").hidden = !hasRuns();
    for (const [id, isByRun] of this.choices()) document.getElementById(id).onclick = () => this.choose(isByRun);
    this.isByRun = false;
    this.turn(this.isSeveral);
  }

  choices() { return [["by-hart", false], ["by-run", true]]; }

  choose(isByRun) {
    this.isByRun = isByRun;
    for (const [id, is] of this.choices()) document.getElementById(id).setAttribute("aria-pressed", is === isByRun);
    this.show();
    view.changed();
  }

  turn(isShown) {
    this.element.hidden = !isShown;
    this.button.setAttribute("aria-pressed", isShown);
    this.show();
  }

  // Shows the selected row; where none is selected, what is selected in the graph.
  show() {
    const {grid, icicle, shown} = view, row = grid.rows && grid.rows[grid.at], {graph} = icicle;
    if (this.element.hidden || !graph) return;
    const key = [shown.spreads, row || graph, row ? -1 : icicle.selected, this.isByRun];
    if (this.key && key.every((part, k) => part === this.key[k])) return;
    this.key = key;
    const all = shown.spreads.of(row ? row.nodes : nodesOf(graph, icicle.selected));
    const {values, names} = this.isByRun ? byRun(all) : {values: all, names: all.map((_, hart) => hartName(hart))};
    const found = summaryOf(values);
    const name = document.getElementById("spread-name");
    name.textContent = row ? row.shown || row.name : graph.shown(icicle.selected);
    name.title = row ? row.name : graph.label(icicle.selected);
    this.tell(found, values.length);
    this.draw(values, names, found);
  }

  // Figures are rounded down.
  tell({harts, sum, least, greatest, deviation, imbalance}, all) {
    const {period} = view.shown, whole = value => grouped.format(Math.floor(value));
    const mean = harts ? sum * period / harts : 0;
    document.getElementById("spread-figures").textContent = [
      `inclusive in ${harts} of ${all} ${this.isByRun ? "runs" : "harts"}`, `least ${figure(least)}`, `mean ${whole(mean)}`,
      `greatest ${figure(greatest)}`, `standard deviation ${whole(deviation * period)}`,
      `imbalance ${hundredths(imbalance)}`,
    ].join(" · ");
  }

  draw(values, names, {mean, greatest}) {
    const part = value => `${greatest ? 100 * value / greatest : 0}%`;
    this.bars.style.setProperty("--mean", part(mean));
    this.bars.style.maxWidth = `${49 * values.length}px`;
    this.bars.classList.toggle("many", values.length > 200);
    this.bars.replaceChildren(...values.map((value, place) => {
      const bar = document.createElement("div"), text = `${names[place]}: ${figure(value)}`;
      bar.setAttribute("role", "listitem");
      bar.setAttribute("aria-label", text);
      bar.title = text;
      bar.style.setProperty("--part", part(value));
      return bar;
    }));
  }
}

// Hundredths, rounded down.
const hundredths = value => (Math.floor(value * 100 + 1e-9) / 100).toFixed(2);
