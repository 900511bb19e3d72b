// The text of a source file with the cost of each line in its margin: `inclusive` counts each sample once whose call
// path has a scope at the line, `exclusive` those whose statement is there.

class Source {
  constructor(texts) {
    this.texts = texts;
    this.pane = document.getElementById("source");
    this.element = document.getElementById("lines");
    this.body = document.getElementById("text");
    this.file = -1;
    this.at = 0;
    this.lines = [];
    this.element.addEventListener("scroll", () => this.draw());
    this.element.addEventListener("keydown", event => this.key(event));
    document.getElementById("costly-previous").onclick = () => this.goToCostly(-1);
    document.getElementById("costly-next").onclick = () => this.goToCostly(1);
    this.body.addEventListener("click", event => {
      const line = event.target.closest(".line");
      if (line) this.goTo(this.file, Number(line.dataset.line));
    });
    new ResizeObserver(() => this.draw()).observe(this.element);
  }

  // What is shown of the profile from now on; nothing is counted before the pane is seen.
  show(samples) {
    this.samples = samples;
    this.isCounted = false;
    this.goTo(this.file, this.at, false);
  }

  // The files that may be chosen: those with samples, the costliest first.
  fill() {
    const {count, lineFile, sameFile, files, scope} = profile, {samples} = this, nodes = [];
    for (let i = 0; i < count; i++) if (scope[i] >= INLINE && lineFile[i] >= 0 && samples.inclusive[i]) nodes.push(i);
    this.nodes = groupedBy(nodes, node => sameFile[lineFile[node]]);
    this.textAt = new Map(Object.keys(this.texts).map(place => [sameFile[place], this.texts[place]]));
    const own = new Map([...this.nodes].map(([file, group]) => [file, sumOf(group, samples.exclusive)]));
    const chosen = [...this.nodes.keys()].sort((a, b) => own.get(b) - own.get(a));
    if (!this.nodes.has(this.file)) this.file = chosen.length ? chosen[0] : -1;
    chooser("file", chosen.map(file => [file, profile.shortFile(file) + (this.textAt.has(file) ? "" : " (no text)")]),
      this.file, file => this.goTo(Number(file)));
    this.isCounted = true;
    this.count();
  }

  count() {
    const {inclusive, exclusive} = this.samples, text = this.textAt.get(this.file);
    this.costs = new Map();
    for (const [line, nodes] of groupedBy(this.nodes.get(this.file) || [], node => profile.line[node]))
      this.costs.set(line, [covered(nodes, inclusive), sumOf(nodes, exclusive)]);
    const last = Math.max(text ? text.length - (text[text.length - 1] ? 0 : 1) : 0, 0);
    this.lines = text ? Array.from({length: last}, (_, k) => k + 1) : [...this.costs.keys()].sort((a, b) => a - b);
    // A text that is shorter than the lines that samples have is another one than was compiled.
    for (const line of text ? [...this.costs.keys()].sort((a, b) => a - b) : []) if (line > last) this.lines.push(line);
    this.text = text || [];
    document.getElementById("no-text").hidden = !!text || this.file < 0;
  }

  // Goes to a line of a file, or to the costliest where it is 0.
  goTo(file, line = 0, leads = true) {
    if (this.pane.hidden || !this.samples) return Object.assign(this, {file, at: line});
    if (!this.isCounted) { this.file = file; this.fill(); file = this.file; }
    if (!this.nodes.has(file)) return this.draw();
    if (file !== this.file) { this.file = file; this.count(); }
    document.getElementById("file").value = file;
    document.getElementById("file").title = profile.files[file];
    this.at = line || this.costliest();
    if (!this.start) this.start = this.place;
    const place = Math.max(0, this.lines.indexOf(this.at)), {element} = this, top = place * HEIGHT;
    const seen = element.clientHeight - document.getElementById("lines-head").offsetHeight;
    this.body.style.height = `${this.lines.length * HEIGHT}px`;
    if (top < element.scrollTop || top + 2 * HEIGHT > element.scrollTop + seen) element.scrollTop = top - seen / 3;
    this.draw();
    if (leads) view.changed();
  }

  // The file and the line, as links have them.
  get place() { return `${this.file}.${this.at}`; }

  costliest() {
    let best = this.lines[0] || 1;
    for (const [line, [, own]] of this.costs) if (own > (this.costs.get(best) || [0, 0])[1]) best = line;
    return best;
  }

  draw() {
    const {element, body, lines} = this;
    if (!this.isCounted || this.pane.hidden) return;
    body.style.height = `${lines.length * HEIGHT}px`;
    const from = Math.max(0, Math.floor(element.scrollTop / HEIGHT) - 4);
    const to = Math.min(lines.length, Math.ceil((element.scrollTop + element.clientHeight) / HEIGHT) + 4);
    element.setAttribute("aria-rowcount", lines.length + 1);
    body.replaceChildren(...lines.slice(from, to).map((line, k) => this.lineElement(line, from + k)));
    if (document.getElementById(`line-${this.at}`)) element.setAttribute("aria-activedescendant", `line-${this.at}`);
    else element.removeAttribute("aria-activedescendant");
  }

  lineElement(line, place) {
    const element = document.createElement("div"), [all, own] = this.costs.get(line) || [0, 0], {total} = this.samples;
    element.className = "line" + (line === this.at ? " selected" : "");
    element.id = `line-${line}`;
    element.dataset.line = line;
    element.style.top = `${place * HEIGHT}px`;
    element.setAttribute("role", "row");
    element.setAttribute("aria-rowindex", place + 2);
    element.setAttribute("aria-selected", line === this.at);
    element.setAttribute("aria-label", this.spoken(line, all, own));
    const figures = [[all, "inclusive"], [own, "exclusive"]].map(([value, what]) => {
      const cell = this.cell("figure share", value ? share(value, total) : "");
      cell.style.setProperty("--part", `${100 * value / (total || 1)}%`);
      if (value) cell.title = `${what} ${figure(value)}`;
      return cell;
    });
    element.append(...figures, this.cell("number", line || ""), this.cell("code", this.text[line - 1] || ""));
    return element;
  }

  // A line as it is read aloud.
  spoken(line, all, own) {
    const {total} = this.samples;
    const figures = all ? [`inclusive ${share(all, total)} percent`, `exclusive ${share(own, total)} percent`] : [];
    const text = this.text[line - 1] || (this.text.length ? "empty" : "no text");
    return [`line ${line}`, ...figures, text.trim()].join(", ");
  }

  cell(name, text) {
    const cell = document.createElement("div");
    cell.setAttribute("role", "gridcell");
    cell.className = name;
    cell.textContent = text;
    return cell;
  }

  // Goes to the next line with samples (1), or to the previous one (-1), where there is one.
  goToCostly(step) {
    const {lines} = this;
    let place = lines.indexOf(this.at) + step;
    while (place >= 0 && place < lines.length && !this.costs.has(lines[place])) place += step;
    if (lines[place] !== undefined) this.goTo(this.file, lines[place]);
  }

  key(event) {
    if (event.ctrlKey || event.metaKey || event.altKey) return;
    const {lines, element} = this, page = Math.max(1, Math.floor(element.clientHeight / HEIGHT) - 2);
    const step = {ArrowDown: 1, ArrowUp: -1, PageDown: page, PageUp: -page, Home: -Infinity, End: Infinity}[event.key];
    const costly = {n: 1, p: -1}[event.key];
    if (costly) this.goToCostly(costly);
    else if (step === undefined) return;
    else {
      const to = lines[Math.max(0, Math.min(lines.length - 1, lines.indexOf(this.at) + step))];
      if (to !== undefined) this.goTo(this.file, to);
    }
    event.preventDefault();
  }
}
