// Which values are shown: those of one event, of one run or of all, and of one hart of these or of all, of the call paths
// that the filters leave. All tables, the graph and the sources ask here. A filter is {what: "focus" or "hide", kind: "procedure" or "file", of: its
// place in the list}.
//
// Focus counts the samples alone whose call path has the procedure, or a frame in the file. Hide takes the procedure's
// frames, or those of the file's procedures, out of the paths: their cost is that of the call which led to them.

class Shown {
  constructor(base) {
    Object.assign(this, {base, event: base.event, run: -1, hart: -1, filters: []});
    this.choose();
  }

  // What is shown of it from now on. Gives the profile, whose nodes filters may have made anew, and its samples.
  choose({event = this.event, run = this.run, hart = this.hart, filters = this.filters} = {}) {
    const hidden = list => list.filter(filter => filter.what === "hide");
    const text = list => hidden(list).map(filterText).join();
    if (!this.profile || text(filters) !== text(this.filters)) this.profile = withoutHidden(this.base, hidden(filters));
    const {base, profile} = this, numbers = hartsOf(base, run);
    Object.assign(this, {event, run, hart: numbers.includes(hart) ? hart : -1, filters, found: null});
    const focused = filters.filter(filter => filter.what === "focus");
    this.focused = focused.length ? inFocus(base, focused) : null;
    this.chosen = [...base.harts.keys()].filter(k =>
      (run === -1 || base.runs[k] === run) && (this.hart === -1 || base.harts[k] === this.hart));
    const planes = this.chosen.map(k => base.plane(k, event));
    this.samples = profile.samplesOf(profile.moved(base.exclusive(planes, this.focused)));
    if (base.samplesBefore) this.compare();
    return this;
  }

  // The values before, in the event's instructions, and the nodes that have samples on one of both sides.
  compare() {
    const {base, profile, samples, event} = this, period = base.before.periods[event];
    const before = profile.samplesOf(profile.moved(base.exclusive([base.samplesBefore[event]], this.focused)));
    samples.before = Float64Array.from(before.inclusive, count => count * period);
    samples.exclusiveBefore = Float64Array.from(before.exclusive, count => count * period);
    samples.any = samples.inclusive.map((count, node) => count + before.inclusive[node]);
  }

  // How many harts are shown.
  get harts() { return this.chosen.length; }

  // How the samples of all harts are spread, found when it is first asked for.
  get spreads() { return this.found = this.found || new Spreads(this); }

  // For how many of the event's instructions a sample stands, and what these are called.
  get period() { return this.base.events[this.event].period; }
  get unit() { return this.base.events[this.event].unit; }
}

// The numbers of the harts of a run, or of all runs where it is -1.
const hartsOf = ({harts, runs}, run) =>
  [...new Set(harts.filter((_, k) => run === -1 || runs[k] === run))].sort((a, b) => a - b);

// A filter as a word of links, and the filter of a word, if it is one.
const filterText = ({what, kind, of}) => `${what[0]}${kind[0]}${of}`;
function filterOf(text) {
  const [, what, kind, of] = text.match(/^([fh])([pf])(\d+)$/) || [];
  const filter = {what: what === "f" ? "focus" : "hide", kind: kind === "p" ? "procedure" : "file", of: Number(of)};
  return what && filter.of < (kind === "p" ? profile.procedures : profile.files).length ? filter : null;
}

// One control that chooses: its options are pairs of a value and a text.
function chooser(id, options, chosen, onChoose) {
  const select = document.getElementById(id);
  select.replaceChildren(...options.map(([value, text]) => new Option(text, value)));
  select.value = chosen;
  select.onchange = () => onChoose(select.value);
  return select;
}

// For each node 1 where its samples are those of all these filters.
function inFocus(profile, filters) {
  const {count, parent, scope, operand, lineFile, sameFile} = profile, shown = new Uint8Array(count).fill(1);
  for (const {kind, of} of filters) {
    const within = new Uint8Array(count);
    for (let i = 0; i < count; i++) {
      const isIt = kind === "procedure" ? (scope[i] === PROC || scope[i] === INLINE) && operand[i] === of
        : scope[i] >= CALL && lineFile[i] >= 0 && sameFile[lineFile[i]] === of;
      within[i] = isIt || parent[i] >= 0 && within[parent[i]] ? 1 : 0;
      shown[i] &= within[i];
    }
  }
  return shown;
}

// The profile without the frames that these filters hide. Nodes that are alike then are put together.
function withoutHidden(profile, filters) {
  if (!filters.length) return profile;
  const {count, parent, scope, operand, lineFile, line} = profile, isHidden = hiddenFrames(profile, filters);
  const tree = new Siblings(profile), to = new Int32Array(count);
  // Of a child of a hidden frame: IN_PROCEDURE, or the outermost hidden inlined procedure, whose line is then its own.
  const IN_PROCEDURE = -2, site = new Int32Array(count).fill(-1);
  for (let i = 0; i < count; i++) {
    const p = parent[i], up = p < 0 ? -1 : to[p];
    if (p >= 0 && isHidden[p]) site[i] = scope[p] === PROC ? IN_PROCEDURE : site[p] === -1 ? p : site[p];
    const goesUp = isHidden[i] || site[i] === IN_PROCEDURE && scope[i] >= CALL, at = site[i] >= 0 ? site[i] : i;
    to[i] = goesUp ? up : tree.node(up, scope[i], scope[i] <= INLINE ? operand[i] : -1, lineFile[at], line[at]);
  }
  return tree.profile(to);
}

// For each node 1 where it is a procedure, or an inlined one, that is hidden. The first child has a line of its file.
function hiddenFrames(profile, filters) {
  const {count, scope, operand, lineFile, sameFile} = profile, isHidden = new Uint8Array(count);
  for (let i = 0; i < count; i++) {
    if (scope[i] !== PROC && scope[i] !== INLINE) continue;
    const file = i + 1 < count && lineFile[i + 1] >= 0 ? sameFile[lineFile[i + 1]] : -1;
    for (const {kind, of} of filters) if (kind === "procedure" ? operand[i] === of : file === of) isHidden[i] = 1;
  }
  return isHidden;
}

// A tree that is made of nodes one after another, in which siblings differ.
class Siblings {
  constructor(base) {
    Object.assign(this, {base, places: new Map(), kinds: new Map(), known: new Map()});
    this.columns = {parent: [], scope: [], operand: [], lineFile: [], line: []};
  }

  node(parent, scope, operand, lineFile, line) {
    const numbered = (map, key) => { if (!map.has(key)) map.set(key, map.size); return map.get(key); };
    const place = numbered(this.places, ((lineFile + 1) * 4294967296 + line) * 8 + scope);
    const kind = numbered(this.kinds, place * (this.base.procedures.length + 3) + operand + 1);
    const key = (parent + 1) * (this.base.count + 1) + kind, {columns, known} = this;
    if (!known.has(key)) {
      known.set(key, columns.scope.length);
      columns.parent.push(parent);
      columns.scope.push(scope);
      columns.operand.push(operand);
      columns.lineFile.push(lineFile);
      columns.line.push(line);
    }
    return known.get(key);
  }

  // The nodes in preorder, which know where the base's nodes went.
  profile(to) {
    const {parent, scope, operand, lineFile, line} = this.columns, count = scope.length;
    const next = new Int32Array(count + 1).fill(-1), first = new Int32Array(count + 1).fill(-1);
    // Siblings as the format orders them: by scope, procedure, and line, rows of line tables before addresses.
    const file = i => lineFile[i] < 0 ? Infinity : lineFile[i];
    const sorted = Int32Array.from(scope.keys()).sort((a, b) => scope[a] - scope[b] || operand[a] - operand[b]
      || (file(a) === file(b) ? line[a] - line[b] : file(a) - file(b)));
    for (let k = count - 1; k >= 0; k--) {
      const i = sorted[k], p = parent[i] < 0 ? count : parent[i];
      next[i] = first[p];
      first[p] = i;
    }
    const order = [], number = new Int32Array(count), waiting = [first[count]];
    while (waiting.length) {
      const node = waiting.pop();
      if (node < 0) continue;
      number[node] = order.length;
      order.push(node);
      waiting.push(next[node], first[node]);
    }
    const column = (Type, values) => Type.from(order, node => values[node]);
    const columns = {
      parent: Int32Array.from(order, node => parent[node] < 0 ? -1 : number[parent[node]]),
      scope: column(Uint8Array, scope), operand: column(Int32Array, operand),
      lineFile: column(Int32Array, lineFile), line: column(Uint32Array, line),
    };
    return new Profile(this.base.names, columns, [], to.map(node => number[node]));
  }
}
