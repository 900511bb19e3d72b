// The page's state in the fragment of its address, so that a link shows what was seen: event, harts, filters, graph,
// zoom, the selected node, table, sorting, the selected row, search, least share, the line of a source, bars, the
// timeline's depth and instructions. What is as at the start is left out. Node numbers are those of this export.

class Link {
  constructor() {
    this.last = location.hash;
    window.addEventListener("hashchange", () => { if (location.hash !== this.last) this.restore(); });
  }

  // Written a moment after the last change.
  write() {
    clearTimeout(this.timer);
    this.timer = setTimeout(() => {
      this.last = this.text();
      history.replaceState(null, "", this.last || location.pathname + location.search);
      this.last = location.hash;
    }, 60);
  }

  text() {
    const {icicle, grid, shown, source, edges, bars, timeline} = view, {graph} = icicle, {column, down} = grid.sort;
    const {trace} = timeline, isAll = !trace || timeline.to - timeline.from === trace.span;
    const node = at => at === graph.count ? undefined : at;
    const words = {
      event: shown.event === profile.event ? undefined : profile.events[shown.event].name,
      run: shown.run === -1 ? undefined : shown.run,
      hart: shown.hart === -1 ? undefined : shown.hart,
      filters: shown.filters.map(filterText).join(".") || undefined,
      graph: view.graphKind === "procedure" ? undefined : view.graphKind,
      order: view.isByCost ? "cost" : undefined,
      zoom: node(icicle.root), node: node(icicle.selected),
      table: view.kind === "top" ? undefined : view.kind,
      of: view.kind === "sandwich" ? view.procedure : undefined,
      sort: column === "inclusive" && down ? undefined : `${column}.${down ? 1 : 0}`,
      row: grid.at > 0 ? JSON.stringify(grid.orders(grid.at)) : undefined,
      search: view.search.words || undefined,
      least: view.percent === profile.minimum ? undefined : view.percent,
      source: !view.isSourceShown ? view.isSourceMoved ? "off" : undefined
        : view.isSourceMoved || source.place !== source.start ? source.place : undefined,
      bars: bars.isSeveral && bars.element.hidden ? "off" : bars.isByRun ? "runs" : undefined,
      depth: !trace || timeline.depth === timeline.first ? undefined : timeline.depth,
      time: isAll ? undefined : `${Math.round(timeline.from)}.${Math.round(timeline.to)}`,
      panes: edges.some(edge => edge.isMoved) ? edges.map(edge => Math.round(100 * edge.share)).join(".") : undefined,
    };
    const pairs = Object.entries(words).filter(([, value]) => value !== undefined);
    const text = pairs.map(([name, value]) => `${name}=${encodeURIComponent(value)}`).join("&");
    return text ? "#" + text : "";
  }

  restore() {
    this.read();
    // What was read isn't written again.
    clearTimeout(this.timer);
  }

  read() {
    clearTimeout(this.timer);
    this.last = location.hash;
    const words = Object.fromEntries(location.hash.slice(1).split("&").filter(Boolean).map(pair => {
      const [name, value] = pair.split("=");
      try { return [name, decodeURIComponent(value || "")]; } catch (error) { return [name, ""]; }
    }));
    const number = name => words[name] === undefined ? NaN : Number(words[name]);
    const filters = (words.filters || "").split(".").map(filterOf).filter(Boolean);
    view.percent = number("least") >= 0 ? Math.min(number("least"), 100) : profile.minimum;
    view.graphKind = words.graph === "scope" ? "scope" : "procedure";
    view.isByCost = words.order === "cost";
    view.kind = TABLES[words.table] ? words.table : "top";
    if (number("of") >= 0 && number("of") < profile.procedures.length) view.procedure = number("of");
    const [column, down] = (words.sort || "inclusive.1").split(".");
    view.grid.sort = {column: HEADS[column] || column === "scope" ? column : "inclusive", down: down !== "0"};
    view.search = new Search(words.search || "");
    document.getElementById("search").value = view.search.words;
    view.bars.choose(hasRuns() && words.bars === "runs");
    view.bars.turn(view.bars.isSeveral && words.bars !== "off");
    const panes = (words.panes || "").split(".").map(Number);
    view.edges.forEach((edge, k) => { if (panes[k]) edge.set(panes[k] / 100); });
    const run = profile.runs.includes(number("run")) ? number("run") : -1;
    const hart = hartsOf(profile, run).includes(number("hart")) ? number("hart") : -1;
    const event = profile.events.findIndex(({name}) => name === words.event);
    view.choose({event: event < 0 ? profile.event : event, run, hart, filters});
    this.restorePlaces(words, number);
  }

  restorePlaces(words, number) {
    const {icicle, grid, source} = view, isNode = at => at >= 0 && at < icicle.graph.count;
    if (isNode(number("zoom"))) icicle.zoom(number("zoom"));
    if (isNode(number("node"))) icicle.select(number("node"), {speaks: false, leads: false});
    const [file, line] = (words.source || "off").split(".").map(Number);
    if (words.source !== undefined) view.setSource(words.source !== "off");
    let orders = [];
    try { orders = JSON.parse(words.row || "[]"); } catch (error) { orders = []; }
    if (Array.isArray(orders) && orders.length) grid.follow(orders);
    else if (isNode(number("node"))) view.follow(number("node"));
    if (file >= 0) source.goTo(file, line, false);
    this.restoreTimeline(words, number);
  }

  restoreTimeline(words, number) {
    const {timeline} = view, [from, to] = (words.time || "").split(".").map(Number);
    if (!timeline.trace) return;
    timeline.setDepth(number("depth") >= 1 ? Math.round(number("depth")) : timeline.first);
    if (to > from) timeline.show(from, to); else timeline.show(0, timeline.trace.span);
  }
}
