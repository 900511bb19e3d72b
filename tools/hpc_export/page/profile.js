// The profile: the nodes in preorder, and the samples of each hart and event. Nodes, procedures, files and events are
// places in lists.

const ROOT = 0, PROC = 1, INLINE = 2, CALL = 3, STMT = 4;
const ROOT_NAMES = ["<thread root>", "<partial call paths>"];

class Profile {
  // `names` has the lists and numbers of the export; the columns are parent, operand, lineFile, line and scope. Samples
  // are hart by hart, and of each hart event by event; of each hart `harts` has its number in its run, and `runs` the run.
  // `nodeOf` says of a profile that filters made which of its nodes each node of the whole profile is.
  constructor(names, columns, allSamples, nodeOf = null) {
    Object.assign(this, names, columns, {names, allSamples, nodeOf});
    const n = this.count = this.scope.length;
    this.end = new Int32Array(n);
    for (let i = n - 1; i >= 0; i--) {
      if (this.end[i] === 0) this.end[i] = i + 1;
      const p = this.parent[i];
      if (p >= 0 && this.end[p] < this.end[i]) this.end[p] = this.end[i];
    }
    // For each node the nearest Proc at or above it (-1 at a root).
    this.procNode = new Int32Array(n);
    for (let i = 0; i < n; i++)
      this.procNode[i] = this.scope[i] === PROC ? i : this.scope[i] === ROOT ? -1 : this.procNode[this.parent[i]];
    // Files of one name are one file: the first of them.
    this.sameFile = this.sameFile || sameNames(this.files);
  }

  static unpacked(names, buffer) {
    const n = names.nodes;
    let at = 0;
    const column = (Type, length) => { const values = new Type(buffer, at, length); at += 4 * length; return values; };
    const parent = column(Int32Array, n).map((before, i) => before ? i - before : -1);
    const operand = column(Int32Array, n), lineFile = column(Int32Array, n), line = column(Uint32Array, n);
    const samples = names.entries.map(length =>
      ({nodes: column(Uint32Array, length), counts: column(Uint32Array, length)}));
    // Of a comparison the samples before, event by event.
    const samplesBefore = names.before && names.before.entries.map(length =>
      ({nodes: column(Uint32Array, length), counts: column(Uint32Array, length)}));
    const scope = new Uint8Array(buffer, at, n);
    return Object.assign(new Profile(names, {parent, operand, lineFile, line, scope}, samples), {samplesBefore});
  }

  place(i) {
    const f = this.lineFile[i];
    return f < 0 ? address(this.line[i]) : `${this.files[f]}:${this.line[i]}`;
  }

  // The same without the folder.
  shortPlace(i) {
    const f = this.lineFile[i];
    return f < 0 ? address(this.line[i]) : `${this.shortFile(f)}:${this.line[i]}`;
  }

  shortFile(file) {
    this.shortFiles = this.shortFiles || shortFiles(this.files);
    return this.shortFiles[file];
  }

  // As the printed tables have it.
  label(i) {
    switch (this.scope[i]) {
      case ROOT: return ROOT_NAMES[this.operand[i]];
      case PROC: return this.procedures[this.operand[i]];
      case INLINE: return `[I] ${this.procedures[this.operand[i]]}${this.before ? "" : ` called at ${this.place(i)}`}`;
      case CALL: return `call at ${this.place(i)}`;
      default: return this.place(i);
    }
  }

  // As it is shown: a call has the name of what it calls.
  shortLabel(i) {
    switch (this.scope[i]) {
      case INLINE: return this.before ? this.label(i) : `[I] ${this.procedures[this.operand[i]]} at ${this.shortPlace(i)}`;
      case CALL: return `call ${this.callees(i)} at ${this.shortPlace(i)}`;
      case STMT: return this.shortPlace(i);
      default: return this.label(i);
    }
  }

  // What a call leads to where it has samples, the costliest first.
  callees(i) {
    const nodes = [], {inclusive} = view.samples;
    for (let node = i + 1; node < this.end[i]; node = this.end[node])
      if (this.scope[node] <= INLINE && inclusive[node]) nodes.push(node);
    const called = nodes.sort((a, b) => inclusive[b] - inclusive[a]).map(node => this.procedures[this.operand[node]]);
    return called.length > 2 ? `${called[0]} and ${called.length - 1} more` : called.join(" and ") || "what is hidden";
  }

  // The procedure that a node is, or lies in.
  procedureOf(i) {
    while (i >= 0 && this.scope[i] > INLINE) i = this.parent[i];
    return i < 0 || this.scope[i] === ROOT ? -1 : this.operand[i];
  }

  // The samples of a hart and an event, by their places in the lists.
  plane(hart, event) { return this.allSamples[hart * this.events.length + event]; }

  // The exclusive samples of several planes, of the nodes where `isShown` says so.
  exclusive(planes, isShown = null) {
    const found = new Uint32Array(this.count);
    for (const {nodes, counts} of planes)
      for (let k = 0; k < nodes.length; k++) if (!isShown || isShown[nodes[k]]) found[nodes[k]] += counts[k];
    return found;
  }

  // The samples of the whole profile's nodes, at the nodes of this one.
  moved(exclusive) {
    if (!this.nodeOf) return exclusive;
    const found = new Uint32Array(this.count);
    for (let i = 0; i < exclusive.length; i++) if (exclusive[i]) found[this.nodeOf[i]] += exclusive[i];
    return found;
  }

  // Exclusive, frame and inclusive samples, a number for each node, and their total.
  samplesOf(exclusive) {
    const n = this.count;
    const frame = exclusive.slice(), inclusive = exclusive.slice();
    let total = 0;
    for (let i = n - 1; i >= 0; i--) {
      const p = this.parent[i];
      if (p < 0) { total += inclusive[i]; continue; }
      inclusive[p] += inclusive[i];
      if (this.scope[i] !== PROC) frame[p] += frame[i];
    }
    return {exclusive, frame, inclusive, total, any: inclusive};
  }
}

function sameNames(names) {
  const first = new Map();
  return names.map((name, place) => { if (!first.has(name)) first.set(name, place); return first.get(name); });
}

const address = a => "0x" + a.toString(16).padStart(8, "0");

// Names without their folders. Of files that have one name then, so many folders stay that they differ.
function shortFiles(files) {
  const cut = (path, folders) => path.split("/").slice(-1 - folders).join("/"), found = files.map(path => cut(path, 0));
  for (let folders = 1; folders < 64; folders++) {
    const paths = new Map();
    files.forEach((path, k) => paths.set(found[k], (paths.get(found[k]) || new Set()).add(path)));
    const alike = files.map((_, k) => paths.get(found[k]).size > 1);
    if (!alike.includes(true)) break;
    files.forEach((path, k) => { if (alike[k]) found[k] = cut(path, folders); });
  }
  return found;
}

const grouped = new Intl.NumberFormat("en");
const figure = samples => grouped.format(samples * view.shown.period);

// A figure of few letters, rounded down: 11.6 M.
function shortValue(value) {
  const units = ["", " k", " M", " G", " T"];
  let unit = 0;
  while (unit < 4 && value >= 1000 ** (unit + 1)) unit++;
  if (!unit) return String(value);
  const tenths = Math.floor(value / 1000 ** unit * 10);
  return (tenths < 1000 ? `${Math.floor(tenths / 10)}.${tenths % 10}` : String(Math.floor(tenths / 10))) + units[unit];
}

const shortFigure = samples => shortValue(samples * view.shown.period);

// Tenths of a percent, rounded down.
const share = (part, total) => {
  const tenths = total ? Math.floor(part * 1000 / total) : 0;
  return `${Math.floor(tenths / 10)}.${tenths % 10}`;
};

// Cut in the middle, to at most so many letters.
function shortened(label, letters) {
  if (label.length <= letters) return label;
  if (letters < 3) return letters < 1 ? "" : label.slice(0, Math.max(0, letters - 1)) + "…";
  const front = Math.ceil((letters - 1) / 2);
  return label.slice(0, front) + "…" + label.slice(label.length - (letters - 1 - front));
}
