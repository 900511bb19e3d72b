// The table on the page: rows that unfold and sort, of which those are drawn that are seen.

const HEIGHT = 24, PART = 500000;
// The milliseconds within which two clicks are a double click.
const TWICE = 500;
// Widths: of a table that isn't narrow, of a figure's column, and of names where all columns or whole figures are there.
const MEDIUM = 540, LEAST_FIGURE = 104, WIDE_NAME = 420, LEAST_NAME = 190;
const IMBALANCE = 112;

// A name for a row with room for so many letters: that of a call goes without "call" first, so that more of what it calls
// is seen.
const fittedRow = (name, letters) => shortened(name.length > letters ? name.replace(/^call /, "") : name, letters);

class Grid {
  constructor() {
    this.element = document.getElementById("grid");
    this.head = document.getElementById("head");
    this.body = document.getElementById("rows");
    this.sort = {column: "inclusive", down: true};
    this.least = 0;
    this.element.addEventListener("scroll", () => this.draw());
    this.element.addEventListener("keydown", event => this.key(event));
    this.body.addEventListener("click", event => this.click(event));
    this.body.addEventListener("mousemove", event => this.hover(event));
    this.body.addEventListener("mouseleave", () => view.icicle.hover(-1));
    new ResizeObserver(() => this.draw()).observe(this.element);
  }

  show(kind, samples) {
    this.kind = kind;
    this.samples = samples;
    this.table = TABLES[kind];
    this.columns = columnsOf(kind);
    if (!["scope", ...this.columns].includes(this.sort.column)) this.sort = {column: "inclusive", down: true};
    this.rows = this.sorted(this.table.make(samples), this.table.inOrder).map(row => ({...row, level: 0}));
    this.at = 0;
    this.header();
    if (kind === "sandwich") for (let place = this.rows.length - 1; place >= 0; place--) this.unfold(place);
    // Who calls, and who is called, is asked of one procedure: nothing is unfolded before.
    if (kind === "top" || kind === "flat") this.hotPath(0, false);
    this.at = 0;
    this.element.scrollTop = 0;
    this.element.setAttribute("aria-label", `${this.table.title} table: ${this.table.about}`);
    this.draw();
  }

  // The rows that have the least share, in the order that is chosen.
  sorted(rows, isInOrder = false) {
    const {column, down} = this.sort, sign = down ? -1 : 1, {period} = view.shown;
    const weight = row => profile.before ? Math.max(row.inclusive, valueOf(row, "before") / period) : row.inclusive;
    const shown = this.least ? rows.filter(row => weight(row) >= this.least) : rows;
    if (isInOrder) return shown.sort(inOrder);
    if (column === "scope") return shown.sort((a, b) => -sign * inOrder(a, b));
    return shown.sort((a, b) => sign * (valueOf(a, column) - valueOf(b, column)) || inOrder(a, b));
  }

  header() {
    const columns = ["scope", ...this.columns];
    this.head.replaceChildren(...columns.map((column, place) => {
      const cell = document.createElement("div"), button = document.createElement("button");
      const sorts = this.sort.column === column;
      cell.setAttribute("role", "columnheader");
      cell.setAttribute("aria-sort", sorts ? (this.sort.down ? "descending" : "ascending") : "none");
      cell.className = column === "imbalance" ? "most" : isMore(column, place - 1) ? "more" : "";
      if (column === "imbalance") cell.title = "The greatest over the mean of the harts that have samples here";
      button.type = "button";
      button.textContent = (HEADS[column] || "Scope") + (sorts ? (this.sort.down ? " ▾" : " ▴") : "");
      const spoken = HEADS[VALUE[column]] || "Scope";
      button.setAttribute("aria-label", column.endsWith("share") ? `${spoken}, percent` : spoken);
      button.onclick = () => this.sortBy(column);
      cell.append(button);
      return cell;
    }));
  }

  // Sorts siblings anew; what is unfolded stays so.
  sortBy(column, down = this.sort.column === column ? !this.sort.down : true) {
    this.sort = {column, down};
    const chosen = this.rows[this.at], sorted = [];
    const waiting = this.sorted(this.rows.filter(row => row.level === 0), this.table.inOrder).reverse();
    while (waiting.length) {
      const row = waiting.pop();
      sorted.push(row);
      if (row.open) waiting.push(...this.sorted(row.below).reverse());
    }
    this.rows = sorted;
    this.at = Math.max(0, sorted.indexOf(chosen));
    this.header();
    this.draw();
    view.changed();
  }

  unfold(place) {
    const row = this.rows[place];
    if (!row || !row.has || row.open) return;
    row.below = row.below || this.sorted(row.make()).map(below => ({...below, level: row.level + 1}));
    row.open = true;
    // Rows below that were unfolded before are unfolded again.
    const shown = [], waiting = row.below.slice().reverse();
    while (waiting.length) {
      const next = waiting.pop();
      shown.push(next);
      if (next.open) for (let k = next.below.length - 1; k >= 0; k--) waiting.push(next.below[k]);
    }
    this.rows = this.rows.slice(0, place + 1).concat(shown, this.rows.slice(place + 1));
  }

  fold(place) {
    const row = this.rows[place];
    if (!row || !row.open) return;
    let end = place + 1;
    while (end < this.rows.length && this.rows[end].level > row.level) end++;
    this.rows = this.rows.slice(0, place + 1).concat(this.rows.slice(end));
    row.open = false;
  }

  turn(place) {
    if (this.rows[place].open) this.fold(place); else this.unfold(place);
    this.draw();
  }

  foldAll() {
    this.rows = this.rows.filter(row => row.level === 0);
    this.rows.forEach(row => { row.open = false; row.below = null; });
    this.choose(0);
  }

  // Unfolds the costliest row below, as long as it has more than half of its parent's cost.
  hotPath(place, moves = true) {
    for (let steps = 0; steps < 2000; steps++) {
      const row = this.rows[place];
      if (!row || !row.has) break;
      this.unfold(place);
      let best = -1;
      for (let k = place + 1; k < this.rows.length && this.rows[k].level > row.level; k++) {
        const below = this.rows[k];
        if (below.level === row.level + 1 && (best < 0 || below.inclusive > this.rows[best].inclusive)) best = k;
      }
      if (best < 0 || this.rows[best].inclusive * 2 <= row.inclusive) break;
      place = best;
      if (!moves && this.rows[place].level > 12) break;
    }
    if (moves) this.choose(place);
  }

  // Unfolds and chooses the row to which these orders lead, the outermost first, as far as there is one. Gives whether
  // there is any.
  follow(orders, leads = false) {
    let place = -1, from = 0;
    for (const [level, order] of orders.entries()) {
      if (place >= 0) this.unfold(place);
      const isIt = row => row.level === level && row.order === order;
      let k = from;
      while (k < this.rows.length && this.rows[k].level >= level && !isIt(this.rows[k])) k++;
      if (k >= this.rows.length || !isIt(this.rows[k])) break;
      place = k;
      from = k + 1;
    }
    if (place >= 0) this.choose(place, leads);
    return place >= 0;
  }

  // The orders that lead to a row.
  orders(place) {
    const found = [];
    for (let level = this.rows[place] ? this.rows[place].level : -1; level >= 0; level--) {
      while (this.rows[place].level > level) place--;
      found.unshift(this.rows[place].order);
    }
    return found;
  }

  unselect() {
    this.at = -1;
    this.draw();
  }

  // Chooses a row; the graph and the source follow where this is what leads.
  choose(place, leads = true) {
    this.at = Math.max(0, Math.min(place, this.rows.length - 1));
    const top = this.at * HEIGHT, head = this.head.offsetHeight, {element} = this;
    // What is scrolled has its height first.
    this.body.style.height = `${Math.min(this.rows.length, PART) * HEIGHT}px`;
    element.scrollTop = Math.min(element.scrollTop, top);
    element.scrollTop = Math.max(element.scrollTop, top + HEIGHT + head - element.clientHeight);
    this.draw();
    view.rowChosen(this.rows[this.at], leads);
  }

  // A browser's element has a greatest height: of more rows than that a part is shown, and said to be one.
  draw() {
    if (!this.rows) return;
    const {element, body} = this, shown = Math.min(this.rows.length, PART), all = grouped.format(this.rows.length);
    const about = document.getElementById("about"), isPart = shown < this.rows.length;
    about.textContent = isPart ? `the first ${grouped.format(PART)} of ${all} rows: fold some` : this.table.about;
    about.classList.toggle("says", isPart);
    body.style.height = `${shown * HEIGHT}px`;
    const from = Math.max(0, Math.floor(element.scrollTop / HEIGHT) - 4);
    const to = Math.min(shown, Math.ceil((element.scrollTop + element.clientHeight) / HEIGHT) + 4);
    element.setAttribute("aria-rowcount", this.rows.length + 1);
    this.fit();
    const elements = shown ? [] : [this.note()];
    for (let place = from; place < to; place++) elements.push(this.rowElement(place));
    body.replaceChildren(...elements);
    const chosen = document.getElementById(`row-${this.at}`);
    if (chosen) element.setAttribute("aria-activedescendant", chosen.id);
    else element.removeAttribute("aria-activedescendant");
  }

  // The columns have room for the greatest figure. Where that leaves too little for names the last one goes, and then
  // figures are short.
  fit() {
    const {element} = this, width = element.clientWidth;
    const figures = Math.max(LEAST_FIGURE, 9 * figure(this.samples.total).length + 22);
    const others = this.columns.includes("imbalance") ? 90 + IMBALANCE : 90;
    const isWide = width - 3 * figures - others >= WIDE_NAME;
    this.isNarrow = width < MEDIUM;
    this.isShort = this.isNarrow || width - (isWide ? 3 : 2) * figures - others < LEAST_NAME;
    element.classList.toggle("several", others > 90);
    element.classList.toggle("narrow", this.isNarrow);
    element.classList.toggle("medium", !this.isNarrow && !isWide);
    element.style.setProperty("--figure", `${this.isShort ? LEAST_FIGURE : figures}px`);
    this.nameWidth = this.head.firstElementChild.clientWidth;
  }

  // Why there is no row.
  note() {
    const note = document.createElement("div"), name = profile.procedures[view.procedure];
    note.className = "note";
    note.textContent = !this.samples.total ? "No samples here." : this.kind === "sandwich" && !this.least
      ? `${name} is inlined wherever it has samples: callers and callees are those of procedures that are called.`
      : "No row has this share.";
    return note;
  }

  rowElement(place) {
    const row = this.rows[place], element = document.createElement("div");
    element.className = "row" + (place === this.at ? " selected" : "");
    element.id = `row-${place}`;
    element.style.top = `${place * HEIGHT}px`;
    element.setAttribute("role", "row");
    element.setAttribute("aria-level", row.level + 1);
    element.setAttribute("aria-rowindex", place + 2);
    element.setAttribute("aria-selected", place === this.at);
    if (row.has) element.setAttribute("aria-expanded", !!row.open);
    element.setAttribute("aria-label", this.spoken(row));
    element.classList.toggle("pointed", view.isPointed(row));
    const cells = this.columns.map((column, k) => this.valueCell(valueOf(row, column), column, k));
    element.append(this.nameCell(row), ...cells);
    return element;
  }

  // A row as it is read aloud: its name, and its figures with what they are.
  spoken(row) {
    const {total} = this.samples, figures = this.columns.map(column => {
      const text = textOf(valueOf(row, column), column, total);
      return column.endsWith("share") ? `${text} percent` : `${column} ${text}`;
    });
    return [row.name, ...figures].join(", ");
  }

  // Marks the rows of what the pointer is on in the graph.
  point() {
    for (const element of this.body.querySelectorAll(".row"))
      element.classList.toggle("pointed", view.isPointed(this.rows[Number(element.id.slice(4))]));
  }

  nameCell(row) {
    const name = document.createElement("div"), twist = document.createElement("span");
    name.setAttribute("role", "gridcell");
    name.className = "name" + (row.isPlace ? " place" : "") + (view.search.matches(row.name) ? " match" : "");
    // Deep rows move no further right than they can be read; their level is said. A name is cut to the letters of this
    // font that are left.
    const {nameWidth} = this, [step, letter] = this.isNarrow ? [6, 7.25] : [14, 7.85];
    const indent = Math.min(row.level * step, Math.floor(nameWidth * 0.4));
    const letters = Math.max(6, Math.floor((nameWidth - indent - 32) / letter));
    name.style.setProperty("--indent", `${indent}px`);
    name.title = row.level * step > indent ? `${row.name} (level ${row.level})` : row.name;
    twist.className = "twist";
    twist.setAttribute("aria-hidden", "true");
    twist.textContent = row.has ? (row.open ? "▾" : "▸") : "";
    name.append(twist, fittedRow(row.shown || row.name, letters));
    return name;
  }

  valueCell(value, column, k) {
    const cell = document.createElement("div"), {total} = this.samples;
    cell.setAttribute("role", "gridcell");
    cell.classList.add("figure");
    cell.classList.toggle("zero", !value);
    cell.classList.toggle("share", column.endsWith("share"));
    cell.classList.toggle("more", isMore(column, k));
    cell.classList.toggle("most", column === "imbalance");
    const text = textOf(value, column, total), isShort = this.isShort && !isRatio(column);
    if (column.endsWith("share")) cell.style.setProperty("--part", `${100 * value / (total || 1)}%`);
    cell.textContent = isShort && !column.endsWith("share") ? shortText(value, column) : text;
    if (this.isShort) cell.title = text;
    return cell;
  }

  placeOf(event) {
    const element = event.target.closest(".row");
    return element ? Number(element.id.slice(4)) : -1;
  }

  // A row is drawn anew when it is chosen, so that a browser's own double click wouldn't come to it.
  click(event) {
    const place = this.placeOf(event), {clicked} = this;
    if (place < 0) return;
    const isTwice = clicked && clicked.place === place && event.timeStamp - clicked.time < TWICE;
    this.clicked = isTwice ? null : {place, time: event.timeStamp};
    if (isTwice || event.target.className === "twist") this.turn(place);
    this.choose(place);
  }

  hover(event) {
    const row = this.rows[this.placeOf(event)];
    if (row) view.icicle.hover(view.graphNodeOf(row));
  }

  key(event) {
    if (event.target !== this.element || event.ctrlKey || event.metaKey || event.altKey) return;
    const place = this.at, row = this.rows[place];
    const page = Math.max(1, Math.floor(this.element.clientHeight / HEIGHT) - 2);
    const step = {ArrowDown: 1, ArrowUp: -1, PageDown: page, PageUp: -page, Home: -Infinity, End: Infinity}[event.key];
    if (step !== undefined) this.choose(place + step);
    else if (!row) return;
    else if (event.key === "ArrowRight") { if (row.open) this.choose(place + 1); else this.turn(place); }
    else if (event.key === "ArrowLeft") {
      if (row.open) this.turn(place);
      else { let up = place; while (up > 0 && this.rows[up].level >= row.level) up--; if (row.level) this.choose(up); }
    } else if (event.key === "Enter" || event.key === " ") this.turn(place);
    else if (event.key === "g") view.showInGraph(row);
    else return;
    event.preventDefault();
  }
}
