// Search: a text within names, in any case, or a regular expression between slashes.

class Search {
  constructor(words = "") {
    this.words = words;
    const expression = words.match(/^\/(.+)\/$/);
    try { this.test = expression ? new RegExp(expression[1], "i") : null; } catch (error) { this.wrong = true; }
    this.text = words.toLowerCase();
    this.cache = new Map();
  }
  matches(name) {
    if (!this.words || this.wrong) return false;
    let found = this.cache.get(name);
    if (found === undefined) {
      found = this.test ? this.test.test(name) : name.toLowerCase().includes(this.text);
      this.cache.set(name, found);
    }
    return found;
  }
  // Whether a place of a call or a statement matches: a text is made once for all nodes of one place.
  matchesPlace(i) {
    const key = (profile.lineFile[i] + 1) * 2 ** 33 + profile.line[i] * 2 + (profile.scope[i] === CALL ? 1 : 0);
    let found = this.cache.get(key);
    if (found === undefined) this.cache.set(key, found = this.matches(profile.label(i)));
    return found;
  }
  // Which nodes of a graph match, how many with samples, and the samples at or below them, each once. Where nothing
  // matches in a graph without places, the places are searched, and what they are in is marked.
  of(graph) {
    if (!this.words || this.wrong) return null;
    const found = this.within(graph);
    if (found.nodes || !graph.nodeOf) return found;
    const places = this.within(view.graphOf("scope"));
    for (let i = 0; i < profile.count; i++) if (places.matched[i]) found.matched[graph.nodeOf[i]] = 1;
    return {...found, nodes: places.nodes, samples: places.samples, arePlaces: true};
  }

  within(graph) {
    const matched = new Uint8Array(graph.count + 1), within = new Uint8Array(graph.count + 1);
    let nodes = 0, samples = 0;
    for (let i = 0; i < graph.count; i++) {
      const above = within[graph.above(i)];
      if (graph.inclusive[i] && (graph.isFaint(i) ? this.matchesPlace(i) : this.matches(graph.label(i)))) {
        matched[i] = 1;
        nodes++;
        if (!above) samples += graph.inclusive[i];
      }
      within[i] = above | matched[i];
    }
    return {matched, nodes, samples};
  }
}
