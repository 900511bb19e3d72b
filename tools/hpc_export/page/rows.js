// The rows of the tables. A row has a name as the printed tables have it, what is shown of it, inclusive and exclusive
// samples, the nodes that these are of, the node or the procedure that it is of, and makes the rows below it when asked.
// `order` is its place among siblings whose cost is alike, and its name in links. `any` says which nodes have rows.

// The samples that lie below any of these nodes, which ascend: each once.
function covered(nodes, inclusive) {
  let sum = 0, end = 0;
  for (const node of nodes) if (node >= end) { sum += inclusive[node]; end = profile.end[node]; }
  return sum;
}

const sumOf = (nodes, values) => { let sum = 0; for (const node of nodes) sum += values[node]; return sum; };

// These nodes by a key, each group in their order.
function groupedBy(nodes, key) {
  const groups = new Map();
  for (const node of nodes) {
    const group = groups.get(key(node));
    if (group) group.push(node); else groups.set(key(node), [node]);
  }
  return groups;
}

function topDown({exclusive, frame, inclusive, any}) {
  const row = node => ({
    name: profile.label(node), shown: profile.shortLabel(node), node, order: node, isPlace: profile.scope[node] >= CALL,
    nodes: [node],
    procedure: profile.procedureOf(node), site: node,
    inclusive: inclusive[node], exclusive: exclusive[node], frame: frame[node],
    has: profile.scope[node] !== STMT && profile.end[node] > node + 1, make: () => below(node + 1, profile.end[node]),
  });
  const below = (from, end) => {
    const rows = [];
    for (let node = from; node < end; node = profile.end[node]) if (any[node]) rows.push(row(node));
    return rows;
  };
  return below(0, profile.count);
}

// All procedures with samples, each with its nodes.
function procedureGroups({any}) {
  const {scope, operand, count} = profile, nodes = [];
  for (let i = 0; i < count; i++) if (scope[i] === PROC && any[i]) nodes.push(i);
  return groupedBy(nodes, node => operand[node]);
}

// What a procedure's row has: its nodes are where it is called, or called from.
const procedureRow = (of, nodes, inclusive, own) => ({
  name: profile.procedures[of], procedure: of, order: of, node: nodes[0], nodes, site: nodes[0],
  inclusive: covered(nodes, inclusive), exclusive: own,
});

const caller = node => profile.procNode[profile.parent[node]];

// Who called: `inner` are the nodes of a chain's first procedure, `outer` for each the node of its last.
function callerRows(inner, outer, samples) {
  const {frame, inclusive, any} = samples;
  const groups = new Map();
  inner.forEach((node, k) => {
    const found = caller(outer[k]);
    if (found < 0) return;
    const of = profile.operand[found];
    if (!groups.has(of)) groups.set(of, [[], []]);
    groups.get(of)[0].push(node);
    groups.get(of)[1].push(found);
  });
  return [...groups].map(([of, [nodes, ends]]) => ({
    ...procedureRow(of, nodes, inclusive, sumOf(nodes, frame)), name: "<- " + profile.procedures[of], node: ends[0],
    site: ends[0], has: ends.some(node => caller(node) >= 0),
    make: () => callerRows(nodes, ends, samples),
  })).filter(row => row.nodes.some(node => any[node]));
}

function callers(samples) {
  return [...procedureGroups(samples)].map(([of, nodes]) => ({
    ...procedureRow(of, nodes, samples.inclusive, sumOf(nodes, samples.frame)),
    has: nodes.some(node => caller(node) >= 0), make: () => callerRows(nodes, nodes, samples),
  }));
}

// The nodes that these nodes of a procedure call, in their order: one may lie below another.
function called(nodes, any) {
  const found = [], {scope, end} = profile;
  for (const node of nodes)
    for (let below = node + 1; below < end[node];) {
      const isCalled = scope[below] === PROC;
      if (isCalled && any[below]) found.push(below);
      below = isCalled ? end[below] : below + 1;
    }
  return found.sort((a, b) => a - b);
}

function calleeRows(nodes, samples) {
  const groups = groupedBy(called(nodes, samples.any), node => profile.operand[node]);
  return [...groups].map(([of, below]) => ({
    ...procedureRow(of, below, samples.inclusive, sumOf(below, samples.frame)), name: "-> " + profile.procedures[of],
    has: called(below, samples.any).length > 0, make: () => calleeRows(below, samples),
  }));
}

function callees(samples) {
  return [...procedureGroups(samples)].map(([of, nodes]) => ({
    ...procedureRow(of, nodes, samples.inclusive, sumOf(nodes, samples.frame)),
    has: called(nodes, samples.any).length > 0, make: () => calleeRows(nodes, samples),
  }));
}

// One procedure with its callers and its callees.
function sandwich(samples, of) {
  const nodes = procedureGroups(samples).get(of);
  if (!nodes) return [];
  const {inclusive, frame, any} = samples, inner = nodes.filter(node => caller(node) >= 0), below = called(nodes, any);
  const part = (name, order, nodes, own, make) => ({
    name, order, procedure: of, isPlace: true, inclusive: covered(nodes, inclusive), exclusive: own, nodes,
    has: nodes.length > 0, make,
  });
  return [
    {...procedureRow(of, nodes, inclusive, sumOf(nodes, frame)), order: 0, has: false},
    part("callers", 1, inner, sumOf(inner, frame), () => callerRows(nodes, nodes, samples)),
    part("callees", 2, below, 0, () => calleeRows(nodes, samples)),
  ];
}

// Lines by their numbers, addresses behind them.
const lineOrder = node => profile.line[node] + (profile.lineFile[node] < 0 ? 4294967296 : 0);

// Files by their names, their procedures, and lines; a frame's place is its call or statement.
function flat({exclusive, inclusive}) {
  const {scope, operand, procNode, lineFile, line, files, procedures, sameFile} = profile, encoder = new TextEncoder();
  const nodes = [];
  for (let i = 0; i < profile.count; i++) if (scope[i] >= CALL && inclusive[i]) nodes.push(i);
  const split = (nodes, key, row) => [...groupedBy(nodes, key).values()].map(group => ({
    ...row(group[0], group), site: group[0], nodes: group,
    inclusive: covered(group, inclusive), exclusive: sumOf(group, exclusive),
  }));
  const procedureAt = node => procNode[node] < 0 ? -1 : operand[procNode[node]];
  const lines = group => split(group, node => lineFile[node] < 0 ? -1 - line[node] : line[node], node => ({
    name: lineFile[node] < 0 ? address(line[node]) : `line ${line[node]}`, isPlace: true, has: false, node,
    procedure: procedureAt(node), order: lineOrder(node)}));
  const procs = group => split(group, procedureAt, (node, group) => ({
    name: procedures[procedureAt(node)] || "<hidden procedure>", order: procedureAt(node), procedure: procedureAt(node),
    node: Math.max(procNode[node], 0), has: true, make: () => lines(group)}));
  return split(nodes, node => lineFile[node] < 0 ? -1 : sameFile[lineFile[node]], (node, group) => {
    const name = lineFile[node] < 0 ? "<unknown file>" : files[lineFile[node]];
    // In the order of the name's bytes.
    const order = Array.from(encoder.encode(name), byte => String.fromCharCode(byte)).join("");
    const isKnown = lineFile[node] >= 0, file = isKnown ? sameFile[lineFile[node]] : -1;
    return {name, shown: isKnown ? profile.shortFile(file) : name, order, file, has: true, make: () => procs(group)};
  });
}

const inOrder = (a, b) => a.order < b.order ? -1 : a.order > b.order ? 1 : 0;
