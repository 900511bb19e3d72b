// The two trees of the graph. Node `count` stands above the roots.

class Graph {
  constructor(count, parent, parts) {
    Object.assign(this, {count, parent}, parts);
    this.first = new Int32Array(count + 1);
    this.next = new Int32Array(count + 1);
  }

  above(i) { return i === this.count ? -1 : this.parent[i] < 0 ? this.count : this.parent[i]; }
  label(i) { return i === this.count ? "all samples" : this.labelOf(i); }
  shown(i) { return i === this.count ? "all samples" : this.shownOf(i); }

  // Inclusive sums, of own samples; parents stand before their children.
  fill(own) {
    const sums = this.inclusive = new Uint32Array(this.count + 1);
    sums.set(own);
    for (let i = this.count - 1; i >= 0; i--) sums[this.above(i)] += sums[i];
  }

  // The same of other values.
  sumsOf(own) {
    const sums = new Float64Array(this.count + 1);
    sums.set(own);
    for (let i = this.count - 1; i >= 0; i--) sums[this.above(i)] += sums[i];
    return sums;
  }

  // Siblings by their places, or by cost.
  order(isByCost) {
    const {first, next, count, inclusive} = this;
    first.fill(-1);
    next.fill(-1);
    const put = i => { const p = this.above(i); next[i] = first[p]; first[p] = i; };
    if (!isByCost) { for (let i = count - 1; i >= 0; i--) put(i); return; }
    // The last one is put in front: the costliest, and of several the first.
    const keys = new Float64Array(count);
    for (let i = 0; i < count; i++) keys[i] = inclusive[i] * (count + 1) + (count - 1 - i);
    keys.sort();
    for (const key of keys) put(count - 1 - key % (count + 1));
  }

  // How many levels lie between a node and the top.
  depth(i) { let d = 0; while ((i = this.above(i)) >= 0) d++; return d; }
  isBelow(i, top) { while (i >= 0 && i !== top) i = this.above(i); return i === top; }
}

// The tree of all scopes.
function scopeGraph(profile) {
  return new Graph(profile.count, profile.parent, {
    labelOf: i => profile.label(i), shownOf: i => profile.shortLabel(i), isFaint: i => profile.scope[i] >= CALL,
    colorOf: i => colorKey(profile.scope[i], profile.operand[i]), nodeOf: null, from: null,
  });
}

// The tree of procedures: places of calls and statements left out, and what then is alike below one node put together.
function procedureGraph(profile) {
  const {count, parent, scope, operand, procedures} = profile, width = 2 * procedures.length + 2, known = new Map();
  const of = new Int32Array(count), from = [], above = [];
  for (let i = 0; i < count; i++) {
    const up = parent[i] < 0 ? -1 : of[parent[i]];
    if (scope[i] >= CALL) { of[i] = up; continue; }
    const which = scope[i] === ROOT ? operand[i] : 2 + 2 * operand[i] + (scope[i] === INLINE ? 1 : 0);
    const key = (up + 1) * width + which;
    let node = known.get(key);
    if (node === undefined) {
      known.set(key, node = from.length);
      from.push(i);
      above.push(up);
    }
    of[i] = node;
  }
  const label = i => scope[from[i]] === INLINE ? "[I] " + procedures[operand[from[i]]] : profile.label(from[i]);
  return new Graph(from.length, Int32Array.from(above), {
    labelOf: label, shownOf: label, isFaint: () => false, nodeOf: of, from,
    colorOf: i => colorKey(scope[from[i]], operand[from[i]]),
  });
}

const graphSamples = (graph, samples) => ownSamples(graph, samples.exclusive);

// Exclusive values of the profile's nodes, by the graph's nodes.
function ownSamples(graph, exclusive) {
  if (!graph.nodeOf) return exclusive;
  const own = new exclusive.constructor(graph.count);
  for (let i = 0; i < profile.count; i++) own[graph.nodeOf[i]] += exclusive[i];
  return own;
}

// What is spent in a procedure without its calls: inlined procedures are parts of it.
function graphFrames(graph, samples) {
  if (!graph.nodeOf) return samples.frame;
  const frame = graphSamples(graph, samples);
  for (let i = graph.count - 1; i >= 0; i--)
    if (profile.scope[graph.from[i]] === INLINE) frame[graph.above(i)] += frame[i];
  return frame;
}
