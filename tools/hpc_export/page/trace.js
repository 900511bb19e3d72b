// A trace: what each hart did at each of its samples. A moment is a number of instructions that a hart has retired; the
// instruction m is drawn from m - 1 to m, and sample k, from 1, is shown from the instruction k * period on up to the
// next sample's, the last one up to the hart's end. Nodes are those of the whole profile, and a depth is a number of
// procedures.

class Trace {
  // `facts` has the period and of each hart the retired instructions and the number of its stretches; the buffer has of
  // each hart the node of each stretch, and then for how many samples it stays.
  constructor(facts, buffer, base) {
    Object.assign(this, {base, period: facts.period});
    let at = 0;
    const column = length => { const values = new Uint32Array(buffer, at, length); at += 4 * length; return values; };
    this.harts = facts.stretches.map((length, hart) => {
      const nodes = column(length), ends = sumsOf(column(length));
      return {retired: Number(facts.retired[hart]), nodes, ends, samples: length ? ends[length - 1] : 0};
    });
    this.span = Math.max(1, ...this.harts.map(hart => hart.retired));
    this.depths = depthsOf(base);
    this.used = this.usedNodes();
    this.deepest = this.used.reduce((most, node) => Math.max(most, this.depths[node]), 1);
  }

  // The nodes that some sample has, each once.
  usedNodes() {
    const is = new Uint8Array(this.base.count);
    for (const {nodes} of this.harts) for (const node of nodes) is[node] = 1;
    return [...is.keys()].filter(node => is[node]);
  }

  // For each node the procedure's node at a depth above it, or the last where there are fewer.
  atDepth(depth) {
    const {scope, parent, count} = this.base, found = new Int32Array(count);
    for (let i = 0; i < count; i++)
      found[i] = parent[i] < 0 || scope[i] === PROC && this.depths[i] <= depth ? i : found[parent[i]];
    return found;
  }

  // The least depth at which no procedure has nine tenths of the samples, or else the deepest.
  firstDepth() {
    const {base, used, deepest} = this, samples = new Float64Array(base.count);
    for (const {nodes, ends} of this.harts)
      nodes.forEach((node, k) => { samples[node] += ends[k] - (k ? ends[k - 1] : 0); });
    const all = sumOf(used, samples);
    for (let depth = 1; depth < deepest; depth++) {
      const at = this.atDepth(depth), groups = [...groupedBy(used, node => base.operand[at[node]]).values()];
      if (Math.max(...groups.map(nodes => sumOf(nodes, samples))) < 0.9 * all) return depth;
    }
    return deepest;
  }

  // For each hart the slices at a depth: their nodes, and for each the number of samples up to its end.
  slices(depth) {
    const at = this.atDepth(depth);
    return this.harts.map(({nodes, ends, samples}) => {
      const kept = new Uint32Array(nodes.length), until = new Uint32Array(nodes.length);
      let count = 0;
      for (let k = 0; k < nodes.length; k++) {
        const node = at[nodes[k]];
        if (!count || kept[count - 1] !== node) kept[count++] = node;
        until[count - 1] = ends[k];
      }
      return {nodes: kept.subarray(0, count), ends: until.subarray(0, count), samples};
    });
  }

  // How many samples a hart has up to an instruction.
  samplesAt(instruction) { return Math.floor(instruction / this.period); }

  // Where the sample with this number from 0 begins, and where the hart ends behind its last one.
  startOf(hart, sample) {
    const {samples, retired} = this.harts[hart];
    return sample < samples ? (sample + 1) * this.period - 1 : retired;
  }
}

function sumsOf(counts) {
  const sums = new Uint32Array(counts.length);
  let sum = 0;
  for (let k = 0; k < counts.length; k++) sums[k] = sum += counts[k];
  return sums;
}

// For each node how many procedures are at or above it.
function depthsOf({count, parent, scope}) {
  const depths = new Uint32Array(count);
  for (let i = 0; i < count; i++) depths[i] = (parent[i] < 0 ? 0 : depths[parent[i]]) + (scope[i] === PROC ? 1 : 0);
  return depths;
}
