// The icicle graph: laid out level by level down to a pixel, drawn where it is seen.

const ROW = 22;
// A name is cut to so many letters at least.
const LEAST_LETTERS = 4;

// A name for a box with room for so many letters: an inlined procedure's goes without its mark first.
function fitted(label, letters) {
  const name = label.length > letters ? label.replace(/^\[I\] /, "") : label;
  return name.length <= letters || letters >= LEAST_LETTERS ? shortened(name, letters) : "";
}

class Icicle {
  constructor() {
    this.canvas = document.getElementById("canvas");
    this.scroller = document.getElementById("scroll");
    this.space = document.getElementById("space");
    this.levels = [];
    this.least = 0;
    this.scroller.addEventListener("scroll", () => this.draw());
    this.canvas.addEventListener("mousemove", event => this.hover(this.at(event)));
    this.canvas.addEventListener("mouseleave", () => this.hover(-1));
    this.canvas.addEventListener("click", event => {
      const node = this.at(event);
      if (node >= 0) { this.select(node); this.zoom(node); }
    });
    this.scroller.addEventListener("keydown", event => this.key(event));
    new ResizeObserver(() => this.layout()).observe(this.scroller);
  }

  show(graph) {
    this.graph = graph;
    this.hovered = -1;
    this.root = this.selected = graph.count;
    this.matched = null;
  }

  // The rectangles that are at least a pixel wide and have the least share, by levels: node (-1 for what is narrower),
  // left, width.
  layout() {
    if (!this.graph) return;
    const {first, next, inclusive} = this.graph, width = this.width = this.scroller.clientWidth, {least} = this;
    const scale = inclusive[this.root] ? width / inclusive[this.root] : 0;
    let level = scale ? [[this.root, 0, width]] : [];
    this.levels = [];
    while (level.length) {
      this.levels.push(level);
      const below = [];
      for (const [node, left] of level) {
        let x = left, narrow = 0;
        if (node < 0) continue;
        for (let child = first[node]; child >= 0; child = next[child]) {
          const w = inclusive[child] * scale;
          if (w >= 1 && inclusive[child] >= least) {
            if (narrow >= 1) below.push([-1, x - narrow, narrow]);
            narrow = 0;
            below.push([child, x, w]);
          } else narrow += w;
          x += w;
        }
        if (narrow >= 1) below.push([-1, x - narrow, narrow]);
      }
      level = below;
    }
    this.space.style.height = `${this.levels.length * ROW + 2}px`;
    this.draw();
  }

  draw() {
    const {canvas, scroller, width, graph} = this, height = scroller.clientHeight, ratio = devicePixelRatio || 1;
    if (!graph || !width || !height) return;
    if (canvas.width !== Math.round(width * ratio) || canvas.height !== Math.round(height * ratio)) {
      canvas.width = Math.round(width * ratio);
      canvas.height = Math.round(height * ratio);
      canvas.style.height = `${height}px`;
    }
    const pen = canvas.getContext("2d"), names = ["ink", "soft", "match", "accent", "card", "mono", "match-ink"];
    const look = this.look = Object.fromEntries(names.map(name => [name, themeColor(name)]));
    pen.setTransform(ratio, 0, 0, ratio, 0, 0);
    pen.clearRect(0, 0, width, height);
    pen.font = `12px ${look.mono}`;
    pen.textBaseline = "middle";
    const letter = pen.measureText("m").width, top = scroller.scrollTop;
    const from = Math.floor(top / ROW), to = Math.min(this.levels.length, Math.ceil((top + height) / ROW));
    this.drawn = 0;
    if (!this.levels.length) {
      pen.fillStyle = look.soft;
      pen.fillText("No samples here. A shorter period takes some.", 10, ROW);
    }
    for (let l = from; l < to; l++) {
      const y = l * ROW - top + 1;
      for (const [node, left, w] of this.levels[l]) this.drawBox(pen, node, left, w, y, letter);
    }
    this.outline(pen, this.hovered, top, look.ink, 1);
    this.outline(pen, this.selected, top, look.accent, 2);
  }

  // The colours of a box and of what is written on it. What a search doesn't find fades.
  lookOf(node) {
    const {graph, look, matched} = this;
    if (node < 0) return {box: mixed(look.soft, look.card, matched ? 0.85 : 0.7), text: look.ink};
    if (matched && matched[node]) return {box: look.match, text: look["match-ink"]};
    const box = graph.before ? changeColor(this.change(node) / Math.max(graph.before[graph.count], 1))
      : colorOf(node === graph.count ? -1 : graph.colorOf(node));
    const text = graph.isFaint(node) ? look.soft : look.ink;
    return matched ? {box: mixed(box, look.card, 0.65), text: look.soft} : {box, text};
  }

  // By how many instructions a node costs more than before.
  change(node) { return this.graph.inclusive[node] * view.shown.period - this.graph.before[node]; }

  drawBox(pen, node, left, w, y, letter) {
    const {box, text} = this.lookOf(node), {graph} = this;
    this.drawn++;
    pen.fillStyle = box;
    pen.fillRect(left, y, Math.max(w - (w > 3 ? 1 : 0), 0.6), ROW - 2);
    if (node >= 0 && this.procedure >= 0 && w > 3 && this.isOf(node)) {
      pen.fillStyle = this.look.accent;
      pen.fillRect(left, y + ROW - 4, w - 1, 2);
    }
    if (node < 0) return;
    const words = fitted(graph.shown(node), Math.floor((w - 9) / letter));
    if (!words) return;
    pen.fillStyle = text;
    pen.fillText(words, left + 5, y + ROW / 2 - 1);
  }

  // Whether a node is the procedure that is selected, wherever it stands.
  isOf(node) {
    const key = node === this.graph.count ? -1 : this.graph.colorOf(node);
    return key >= 0 && key >> 1 === this.procedure;
  }

  outline(pen, node, top, color, thick) {
    if (node < 0 || (node === this.graph.count && thick === 2 && this.root === node)) return;
    const found = this.box(node);
    if (!found) return;
    pen.strokeStyle = color;
    pen.lineWidth = thick;
    const half = thick / 2;
    pen.strokeRect(found.left + half, found.level * ROW - top + 1 + half, Math.max(found.width - thick - 1, 1),
      ROW - 2 - thick);
  }

  box(node) {
    const level = this.graph.depth(node) - this.graph.depth(this.root);
    const found = level >= 0 && this.levels[level] && this.levels[level].find(box => box[0] === node);
    return found ? {level, left: found[1], width: found[2]} : null;
  }

  at(event) {
    const bounds = this.canvas.getBoundingClientRect(), x = event.clientX - bounds.left;
    const level = this.levels[Math.floor((event.clientY - bounds.top + this.scroller.scrollTop) / ROW)] || [];
    let low = 0, high = level.length;
    while (low < high) {
      const middle = (low + high) >> 1, [, left, width] = level[middle];
      if (left + width <= x) low = middle + 1; else high = middle;
    }
    return low < level.length && level[low][1] <= x ? level[low][0] : -1;
  }

  hover(node) {
    if (node === this.hovered) return;
    this.hovered = node;
    this.canvas.style.cursor = node >= 0 ? "pointer" : "";
    this.canvas.title = node >= 0 ? this.graph.label(node) : "";
    this.tell(node >= 0 ? node : this.selected);
    this.draw();
    view.grid.point();
  }

  describe(node) {
    const {graph} = this, total = graph.inclusive[graph.count];
    const frame = node === graph.count ? 0 : graph.frame[node];
    return {label: graph.label(node), all: figure(graph.inclusive[node]), share: share(graph.inclusive[node], total),
      frame: figure(frame), frameShare: share(frame, total)};
  }

  tell(node) {
    const {label, all, share, frame, frameShare} = this.describe(node), detail = document.getElementById("detail");
    const bold = document.createElement("b");
    bold.textContent = label;
    const {before} = this.graph, isAll = node === this.graph.count;
    const alone = before ? ` · before ${grouped.format(before[node])}, change ${signed(this.change(node))}`
      : isAll ? "" : ` · frame ${frame} (${frameShare} %)`;
    detail.replaceChildren(bold, `  inclusive ${all} (${share} %)${alone}${view.causesOf(label)}`);
  }

  // Selects a node; the table follows unless it was the one that asked.
  select(node, {speaks = true, leads = true} = {}) {
    this.selected = node;
    this.tell(node);
    if (speaks) {
      const {label, all, share} = this.describe(node), depth = this.graph.depth(node), {unit} = view.shown;
      document.getElementById("spoken").textContent = `${label}, level ${depth}, ${share} percent, ${all} ${unit}`;
    }
    const level = this.graph.depth(node) - this.graph.depth(this.root), {scroller} = this;
    if (level >= 0) {
      scroller.scrollTop = Math.min(scroller.scrollTop, level * ROW);
      scroller.scrollTop = Math.max(scroller.scrollTop, (level + 1) * ROW - scroller.clientHeight);
    }
    if (leads) view.graphSelected(node);
    this.draw();
  }

  zoom(node) {
    this.root = node;
    this.scroller.scrollTop = 0;
    this.layout();
    this.trail();
    view.changed();
  }

  // The way from the top to the node that is zoomed to; the middle of a long one is left out.
  trail() {
    const {graph} = this, way = [], path = document.getElementById("path");
    for (let node = this.root; node >= 0; node = graph.above(node)) way.unshift(node);
    const parts = way.length > 5 ? [...way.slice(0, 2), -1, ...way.slice(-2)] : way;
    path.replaceChildren(...(this.root === graph.count ? [] : parts.flatMap((node, place) => {
      const between = place ? [document.createTextNode("›")] : [];
      if (node < 0) return [...between, document.createTextNode(` ${way.length - 4} more `)];
      const button = document.createElement("button");
      button.type = "button";
      button.textContent = shortened(graph.shown(node), 26);
      button.title = graph.label(node);
      button.onclick = () => { this.zoom(node); this.select(node); };
      return [...between, button];
    })));
  }

  key(event) {
    const {graph} = this, {above, first, next} = graph, node = this.selected;
    const siblings = step => {
      const seen = [];
      for (let child = first[graph.above(node)]; child >= 0; child = next[child])
        if (graph.inclusive[child]) seen.push(child);
      return seen[seen.indexOf(node) + step];
    };
    const goTo = {
      ArrowUp: () => node === this.root ? undefined : graph.above(node),
      ArrowDown: () => {
        let child = first[node];
        while (child >= 0 && !graph.inclusive[child]) child = next[child];
        return child;
      },
      ArrowLeft: () => node === this.root ? undefined : siblings(-1),
      ArrowRight: () => node === this.root ? undefined : siblings(1),
      Home: () => graph.count,
    }[event.key];
    if (goTo) {
      const to = goTo();
      if (event.key === "Home") this.zoom(graph.count);
      if (to !== undefined && to >= 0) this.select(to);
    } else if (event.key === "Enter" || event.key === " ") {
      this.zoom(node);
      this.select(node);
    } else return;
    event.preventDefault();
  }

  // To what is above, and selects it.
  zoomOut() {
    const to = this.graph.above(this.root);
    this.zoom(to < 0 ? this.graph.count : to);
    this.select(this.root);
  }
}
