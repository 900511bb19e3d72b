// The page: what is chosen, and what follows when it changes.

let profile, view;

const GRAPHS = {procedure: procedureGraph, scope: scopeGraph};

// What is selected: a procedure and a file, -1 where there is none.
const NOTHING = {procedure: -1, file: -1};
const selectedOf = row => row ? {
  procedure: row.procedure === undefined ? -1 : row.procedure,
  file: row.file !== undefined ? row.file : row.site === undefined ? -1 : fileOf(row.site),
} : NOTHING;

class View {
  constructor(base, texts, trace) {
    this.shown = new Shown(base);
    profile = this.shown.profile;
    view = this;
    Object.assign(this, {kind: "top", graphKind: "procedure", isByCost: false, percent: base.minimum, graphs: {}});
    this.search = new Search();
    this.icicle = new Icicle();
    this.grid = new Grid();
    this.source = new Source(texts);
    this.filters = new Filters();
    this.bars = new Bars();
    this.timeline = new Timeline(trace);
    const edge = (...words) => new Edge(...words, () => this.moved());
    this.edges = [edge("edge", "--graph", "y"), edge("side-edge", "--table", "x")];
    this.procedure = base.operand[base.scope.indexOf(PROC)] || 0;
    this.link = new Link();
    const runs = [...new Set(base.runs)];
    chooser("event", base.events.map(({unit}, k) => [k, unit]), base.event, event => this.setEvent(Number(event)));
    document.getElementById("event-field").hidden = base.events.length === 1;
    chooser("run", [[-1, `all (${runs.length})`], ...runs.map(run => [run, run])], -1, run => this.setRun(Number(run)));
    document.getElementById("run-field").hidden = runs.length === 1;
    this.offerHarts();
    // Of a comparison there are sums alone, without harts, places and files.
    for (const id of ["hart-field", "graph-kind", "tab-flat", "focus-file", "hide-file", "sources"])
      document.getElementById(id).hidden = !!base.before;
    for (const kind of Object.keys(GRAPHS))
      document.getElementById(`by-${kind}`).onclick = () => this.setGraph(kind);
    document.getElementById("by-cost").onclick = () => this.setOrder(!this.isByCost);
    document.getElementById("least").oninput = event => this.setLeast(percentAt(Number(event.target.value)));
    this.bindSearch(document.getElementById("search"));
    this.bindTables();
    isDark.addEventListener("change", () => { colors.clear(); this.icicle.draw(); this.timeline.redraw(); });
    this.setSource(Object.keys(texts).length > 0 && innerWidth >= 1000, false);
  }

  // The harts to choose: those of the run that is shown, or of all.
  offerHarts() {
    const {base, run, hart} = this.shown, numbers = hartsOf(base, run);
    this.offered = run;
    const all = numbers.length > 1 ? `all (${numbers.length})` : "all";
    chooser("hart", [[-1, all], ...numbers.map(number => [number, number])], hart, word => this.setHart(Number(word)));
  }

  bindSearch(field) {
    field.oninput = () => {
      clearTimeout(this.timer);
      this.timer = setTimeout(() => this.setSearch(field.value), 120);
    };
    field.onkeydown = event => {
      if (event.key === "Enter") { this.setSearch(field.value); this.nextMatch(event.shiftKey ? -1 : 1); }
      if (event.key === "Escape") { field.value = ""; this.setSearch(""); }
    };
    document.addEventListener("keydown", event => {
      if (event.target.matches("input, select") || event.ctrlKey || event.metaKey || event.altKey) return;
      const press = id => document.getElementById(id).click();
      const does = {
        "/": () => { field.focus(); field.select(); },
        f: () => press("focus-procedure"), F: () => press("focus-file"),
        h: () => press("hide-procedure"), H: () => press("hide-file"),
        a: () => this.setTable("sandwich"), s: () => press("sources"), Escape: () => this.icicle.zoomOut(),
      }[event.key];
      if (!does) return;
      does();
      event.preventDefault();
    });
  }

  bindTables() {
    const tabs = Object.keys(TABLES);
    tabs.forEach((kind, place) => {
      const tab = document.getElementById(`tab-${kind}`);
      tab.title = `${TABLES[kind].title}: ${TABLES[kind].about}`;
      tab.onclick = () => this.setTable(kind);
      tab.onkeydown = event => {
        const last = tabs.length - 1;
        const next = {ArrowRight: place + 1, ArrowLeft: place + last, Home: 0, End: last}[event.key];
        if (next === undefined) return;
        const to = tabs[next % tabs.length];
        event.preventDefault();
        this.setTable(to);
        document.getElementById(`tab-${to}`).focus();
      };
    });
    const {grid} = this, text = separator => written(grid.rows, grid.columns, grid.samples.total, separator);
    document.getElementById("hot").onclick = () => grid.hotPath(Math.max(grid.at, 0));
    document.getElementById("fold").onclick = () => grid.foldAll();
    document.getElementById("sources").onclick = () => this.setSource(!this.isSourceShown);
    const tell = what => this.say(`${grouped.format(grid.rows.length)} rows ${what}`);
    document.getElementById("copy").onclick = () => copied(text("\t")).then(() => tell("copied"));
    document.getElementById("csv").onclick = () => {
      const {event, base} = this.shown, name = base.events.length > 1 ? `.${base.events[event].name}` : "";
      saved(`${profile.title}${name}.${this.kind}.csv`, text(","));
      tell("saved");
    };
  }

  say(words) {
    const about = document.getElementById("about");
    document.getElementById("spoken").textContent = about.textContent = words;
    about.classList.add("says");
  }

  // What is shown changes: graph, tables and source follow.
  choose(words) {
    const before = profile;
    this.shown.choose(words);
    profile = this.shown.profile;
    if (profile !== before) this.graphs = {};
    this.samples = this.shown.samples;
    document.getElementById("event").value = this.shown.event;
    document.getElementById("run").value = this.shown.run;
    if (this.offered !== this.shown.run) this.offerHarts();
    document.getElementById("hart").value = this.shown.hart;
    this.tellFacts();
    this.setLeast(this.percent, false);
    this.setGraph(this.graphKind, profile === before);
    this.setTable(this.kind);
    this.source.show(this.samples);
    this.filters.show();
    this.setSearch(this.search.words);
  }

  tellFacts() {
    const {total} = this.samples, {base, harts, chosen} = this.shown, facts = document.getElementById("facts");
    const {unit, period} = this.shown, runs = new Set(chosen.map(k => base.runs[k])).size;
    const where = (harts === 1 ? "1 hart" : `${harts} harts`) + (runs === 1 ? "" : ` of ${runs} runs`);
    facts.innerHTML = `<b></b> ${unit} · <b></b> samples, one in <b></b> · <b></b>`;
    [figure(total), grouped.format(total), grouped.format(period), base.before ? this.compared() : where]
      .forEach((text, k) => { facts.querySelectorAll("b")[k].textContent = text; });
    const causes = document.getElementById("causes");
    causes.hidden = !profile.partial.length;
    causes.textContent = this.causes();
  }

  // What a comparison is with, and how the total changed.
  compared() {
    const {base, period} = this.shown, before = this.samples.exclusiveBefore.reduce((sum, value) => sum + value, 0);
    const change = signed(this.samples.total * period - before);
    return `before (${base.before.title}) ${grouped.format(before)}, change ${change}`;
  }

  // Why call paths are partial, where the export was given a measurement.
  causes() {
    const parts = profile.partial.map(([cause, samples]) => `${cause} (${grouped.format(samples)})`);
    return parts.length ? `Partial call paths, by samples of all harts: ${parts.join(", ")}.` : "";
  }
  causesOf(label) { return label === ROOT_NAMES[1] && profile.partial.length ? ` · ${this.causes()}` : ""; }

  setEvent(event) { this.choose({event}); this.changed(); }
  setRun(run) { this.choose({run}); this.changed(); }
  setHart(hart) { this.choose({hart}); this.changed(); }

  // The graph begins at all samples then, since its nodes are others.
  setFilters(filters) { this.choose({filters}); this.changed(); }

  // A graph of what is shown, with its sums.
  graphOf(kind) {
    const graph = this.graphs[kind] = this.graphs[kind] || GRAPHS[kind](profile);
    if (graph.samples === this.samples) return graph;
    graph.samples = this.samples;
    graph.fill(graphSamples(graph, this.samples));
    graph.before = this.samples.before ? graph.sumsOf(ownSamples(graph, this.samples.exclusiveBefore)) : null;
    graph.frame = graphFrames(graph, this.samples);
    return graph;
  }

  setGraph(kind, isSame = false) {
    this.graphKind = kind;
    for (const each of Object.keys(GRAPHS))
      document.getElementById(`by-${each}`).setAttribute("aria-pressed", each === kind);
    const {icicle} = this, graph = this.graphOf(kind);
    const root = isSame && icicle.graph === graph ? icicle.root : graph.count;
    document.getElementById("by-cost").setAttribute("aria-pressed", this.isByCost);
    graph.order(this.isByCost);
    icicle.show(graph);
    this.setSearch(this.search.words);
    icicle.zoom(graph.inclusive[root] ? root : graph.count);
    icicle.select(icicle.root, {speaks: false, leads: false});
  }

  setOrder(isByCost) {
    this.isByCost = isByCost;
    document.getElementById("by-cost").setAttribute("aria-pressed", isByCost);
    this.icicle.graph.order(isByCost);
    this.icicle.layout();
    this.changed();
  }

  // Rows and boxes with a smaller share are left out.
  setLeast(percent, draws = true) {
    this.percent = percent;
    this.grid.least = this.icicle.least = percent ? Math.max(1, percent * this.samples.total / 100) : 0;
    const slider = document.getElementById("least"), text = `${Number(percent.toFixed(2))} %`;
    slider.value = sliderAt(percent);
    slider.setAttribute("aria-valuetext", `${Number(percent.toFixed(2))} percent`);
    document.getElementById("least-text").textContent = text;
    if (!draws) return;
    const orders = this.grid.orders(this.grid.at);
    this.icicle.layout();
    this.setTable(this.kind);
    this.grid.follow(orders);
    this.changed();
  }

  setTable(kind) {
    this.kind = kind;
    for (const each of Object.keys(TABLES)) {
      const tab = document.getElementById(`tab-${each}`);
      tab.setAttribute("aria-selected", each === kind);
      tab.tabIndex = each === kind ? 0 : -1;
    }
    this.grid.show(kind, this.samples);
    const {selected, graph} = this.icicle;
    if (selected !== graph.count) this.follow(selected);
    else this.selected = selectedOf(this.grid.rows[0]);
    this.changed();
  }

  setSource(isShown, isMoved = true) {
    this.isSourceShown = isShown;
    this.isSourceMoved = isMoved;
    for (const id of ["source", "side-edge"]) document.getElementById(id).hidden = !isShown;
    document.getElementById("sources").setAttribute("aria-pressed", isShown);
    this.moved();
  }

  moved() {
    if (this.samples) this.source.goTo(this.source.file, this.source.at, false);
    if (this.link) this.changed();
  }

  setSearch(words) {
    this.search = new Search(words.trim());
    const found = this.found = this.search.of(this.icicle.graph), label = document.getElementById("found");
    this.icicle.matched = found && found.matched;
    const [one, more] = found && found.arePlaces ? ["place", "places"] : ["match", "matches"];
    const count = found && `${grouped.format(found.nodes)} ${found.nodes === 1 ? one : more}`;
    label.textContent = this.search.wrong ? "not a regular expression"
      : found ? `${count} · ${share(found.samples, this.samples.total)} %` : "";
    this.icicle.draw();
    this.grid.draw();
    this.changed();
  }

  nextMatch(step) {
    const {found, icicle} = this, {graph} = icicle;
    if (!found || !found.nodes) return;
    let node = icicle.selected === graph.count ? (step > 0 ? -1 : graph.count) : icicle.selected;
    do node = (node + step + graph.count) % graph.count; while (!found.matched[node] || !graph.inclusive[node]);
    if (!icicle.box(node)) icicle.zoom(graph.above(node));
    icicle.select(node);
  }

  // The graph's node of a row: -1 where it has none.
  graphNodeOf(row) {
    const {graph} = this.icicle;
    return !row || row.node === undefined ? -1 : graph.nodeOf ? graph.nodeOf[row.node] : row.node;
  }

  // The table and the source follow the graph.
  graphSelected(node) {
    const {graph} = this.icicle;
    if (node === graph.count) {
      this.icicle.procedure = -1;
      this.selected = NOTHING;
      return this.changed();
    }
    const at = graph.from ? graph.from[node] : node, procedure = profile.procedureOf(at);
    if (procedure >= 0) this.procedure = procedure;
    this.icicle.procedure = procedure;
    this.follow(node);
    this.showSource(at);
    this.changed();
  }

  // The table follows a node of the graph. Where it has no row of it, none is selected.
  follow(node) {
    const {graph} = this.icicle, {grid, kind} = this, at = graph.from ? graph.from[node] : node;
    const procedure = profile.procedureOf(at), way = [];
    if (kind === "top") for (let up = at; up >= 0; up = profile.parent[up]) way.unshift(up);
    else if (kind === "flat") way.push(...this.wayInFiles(at));
    else if (kind === "sandwich") {
      if (procedure >= 0 && !(grid.rows[0] && grid.rows[0].procedure === procedure)) grid.show(kind, this.samples);
      way.push(0);
    } else way.push(procedure);
    if (!grid.follow(way)) grid.unselect();
    this.selected = {procedure, file: fileOf(at)};
  }

  // The way in the flat table: the file, the procedure that was called, and of a place its line.
  wayInFiles(at) {
    const {scope, procNode, operand} = profile, file = fileOf(at);
    const row = this.grid.rows.find(row => row.level === 0 && row.file === file);
    if (!row || procNode[at] < 0) return [];
    return [row.order, operand[procNode[at]], ...(scope[at] >= CALL ? [lineOrder(at)] : [])];
  }

  // Whether a row is of what the pointer is on in the graph: the node, or in other tables its procedure.
  isPointed(row) {
    const {graph, hovered} = this.icicle;
    if (hovered < 0 || hovered === graph.count) return false;
    return this.kind === "top" ? this.graphNodeOf(row) === hovered && !(graph.nodeOf && row.isPlace)
      : row.procedure >= 0 && row.procedure === profile.procedureOf(graph.from ? graph.from[hovered] : hovered);
  }

  // The graph and the source follow the table, where it is the one that leads.
  rowChosen(row, leads) {
    if (!row) return;
    this.selected = selectedOf(row);
    if (row.procedure >= 0) this.procedure = this.icicle.procedure = row.procedure;
    const node = this.graphNodeOf(row), {icicle} = this;
    if (leads && node >= 0) {
      if (!icicle.graph.isBelow(node, icicle.root)) icicle.zoom(icicle.graph.count);
      icicle.select(node, {speaks: false, leads: false});
    } else if (leads) icicle.draw();
    if (leads && row.file >= 0) this.source.goTo(row.file, 0, false);
    else if (leads && row.site !== undefined) this.showSource(row.site);
    this.changed();
  }

  // The source goes to the line of a place, or to the first line with samples of a procedure.
  showSource(node) {
    const {scope, lineFile, sameFile, line, end} = profile;
    const at = scope[node] >= INLINE ? node : node + 1 < end[node] ? node + 1 : node;
    if (lineFile[at] >= 0) this.source.goTo(sameFile[lineFile[at]], line[at], false);
  }

  showInGraph(row) {
    const node = this.graphNodeOf(row);
    if (node < 0) return;
    this.icicle.zoom(node);
    this.icicle.select(node, {leads: false});
  }

  // The bars and the timeline follow once all has changed.
  changed() {
    if (!this.isChanged) queueMicrotask(() => { this.isChanged = false; this.bars.show(); this.timeline.mark(); });
    this.isChanged = true;
    if (this.isReady) this.link.write();
  }
}

// The slider has fine steps where shares are small: its square is the share, 0 to 25 %.
const percentAt = step => step * step / 400;
const sliderAt = percent => Math.round(Math.sqrt(percent * 400));

async function copied(text) {
  if (navigator.clipboard && window.isSecureContext)
    try { return await navigator.clipboard.writeText(text); } catch (error) { /* The older way, below. */ }
  const area = document.createElement("textarea");
  area.value = text;
  document.body.append(area);
  area.select();
  document.execCommand("copy");
  area.remove();
}

function saved(name, text) {
  const link = document.createElement("a");
  link.href = URL.createObjectURL(new Blob([text], {type: "text/csv"}));
  link.download = name;
  link.click();
  setTimeout(() => URL.revokeObjectURL(link.href), 1000);
}
