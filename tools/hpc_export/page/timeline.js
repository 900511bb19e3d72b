// The timeline above the graph: a row for each hart, over the instructions that it retired, coloured by the procedure
// at a depth of the call path. A pixel shows what its hart did at the instruction at the pixel's right edge.

const THICK = 20, THIN = 3, ROOM = 160, LABEL = 13;
// The least stretch that is shown, in instructions; and how far a step of the wheel or of a key goes.
const LEAST_SPAN = 16, ZOOM_STEP = 1.5, PAN_STEP = 0.75, KEY_COLORS = 8, DRAGGED = 4;

class Timeline {
  constructor(trace) {
    this.element = document.getElementById("timeline");
    this.element.hidden = !trace;
    this.trace = trace;
    if (!trace) return;
    Object.assign(this, {from: 0, to: trace.span, hart: 0, at: null, hovered: null, marked: null});
    this.area = document.getElementById("time-area");
    this.canvas = document.getElementById("time-canvas");
    this.image = document.createElement("canvas");
    this.first = trace.firstDepth();
    this.setDepth(this.first, false);
    const press = (id, does) => { document.getElementById(id).onclick = does; };
    press("time-in", () => this.zoomBy(1 / ZOOM_STEP));
    press("time-out", () => this.zoomBy(ZOOM_STEP));
    press("time-all", () => this.show(0, trace.span));
    this.area.addEventListener("keydown", event => this.key(event));
    this.bindPointer();
    new ResizeObserver(() => this.redraw()).observe(this.area);
  }

  bindPointer() {
    const {area} = this;
    area.addEventListener("pointerdown", event => {
      if (event.button) return;
      area.setPointerCapture(event.pointerId);
      this.pressed = this.x(event);
    });
    area.addEventListener("pointermove", event => this.point(event));
    area.addEventListener("pointerup", event => this.release(event));
    area.addEventListener("pointercancel", () => { this.pressed = this.dragged = undefined; this.draw(); });
    area.addEventListener("pointerleave", () => this.hover(null));
    area.addEventListener("wheel", event => this.wheel(event), {passive: false});
  }

  setDepth(depth, isChange = true) {
    const {trace} = this;
    this.depth = Math.max(1, Math.min(trace.deepest, depth));
    this.slices = trace.slices(this.depth);
    chooser("depth", Array.from({length: trace.deepest}, (_, k) => [k + 1, k + 1]), this.depth,
      word => this.setDepth(Number(word)));
    this.hovered = null;
    if (!isChange) return;
    this.redraw();
    view.changed();
  }

  // Shows a stretch of instructions: within the span, and not shorter than can be told apart.
  show(from, to) {
    const {span} = this.trace, length = Math.min(span, Math.max(to - from, Math.min(span, LEAST_SPAN)));
    const start = Math.max(0, Math.min(span - length, from));
    if (start === this.from && start + length === this.to) return;
    Object.assign(this, {from: start, to: start + length});
    this.redraw();
    view.changed();
  }

  zoomBy(factor, middle = this.at ? this.middleOf(this.at) : (this.from + this.to) / 2) {
    this.show(middle - (middle - this.from) * factor, middle + (this.to - middle) * factor);
  }

  pan(share) {
    const step = share * (this.to - this.from);
    this.show(this.from + step, this.to + step);
  }

  wheel(event) {
    const {deltaX, deltaY, deltaMode} = event, unit = deltaMode ? 33 : 1;
    const isSideways = event.shiftKey || Math.abs(deltaX) > Math.abs(deltaY);
    // Nothing is left to zoom out of: the page scrolls.
    if (!isSideways && deltaY > 0 && this.to - this.from >= this.trace.span) return;
    event.preventDefault();
    if (isSideways) this.pan((deltaX || deltaY) * unit / this.width);
    else this.zoomBy(ZOOM_STEP ** (deltaY * unit / 100), this.momentAt(this.x(event)));
  }

  // ---- places

  get gutter() { return this.width < 500 ? 26 : 58; }
  get thick() { return Math.max(THIN, Math.min(THICK, Math.floor(ROOM / this.slices.length))); }
  x(event) { return event.clientX - this.canvas.getBoundingClientRect().left; }
  momentAt(x) {
    const share = (x - this.gutter) / Math.max(1, this.width - this.gutter);
    return this.from + Math.max(0, Math.min(1, share)) * (this.to - this.from);
  }

  // The slice of a hart that has a sample: its place and node, where it begins and ends; or nothing there.
  sliceAt(hart, sample) {
    const {nodes, ends, samples} = this.slices[hart];
    if (sample < 0 || sample >= samples) return null;
    const place = firstFrom(ends, sample + 1), first = place ? ends[place - 1] : 0;
    const [from, to] = [first, ends[place]].map(each => this.trace.startOf(hart, each));
    return {hart, place, node: nodes[place], from, to};
  }

  // What is at a point of the screen.
  sliceOf(event) {
    const y = event.clientY - this.canvas.getBoundingClientRect().top, hart = Math.floor(y / this.thick);
    if (hart < 0 || hart >= this.slices.length || this.x(event) < this.gutter) return null;
    const instruction = Math.floor(this.momentAt(this.x(event))) + 1;
    return instruction > this.trace.harts[hart].retired ? null
      : this.sliceAt(hart, this.trace.samplesAt(instruction) - 1);
  }

  middleOf({from, to}) { return (Math.max(from, this.from) + Math.min(to, this.to)) / 2; }
  nameOf(node) { return profile.label.call(this.trace.base, node); }

  describe({hart, node, from, to}) {
    const depth = this.trace.depths[node], inner = `${hartName(hart)}, instructions ${grouped.format(from + 1)}`;
    return `${inner} to ${grouped.format(to)}: ${this.nameOf(node)}, depth ${depth}`;
  }

  // ---- the pointer

  point(event) {
    const x = this.x(event);
    if (this.pressed !== undefined && Math.abs(x - this.pressed) > DRAGGED) this.dragged = x;
    if (this.dragged !== undefined) { this.dragged = x; this.draw(); } else this.hover(this.sliceOf(event));
  }

  release(event) {
    const {pressed, dragged} = this;
    this.pressed = this.dragged = undefined;
    if (pressed === undefined) return;
    if (dragged !== undefined) {
      const [from, to] = [pressed, dragged].map(x => this.momentAt(x)).sort((a, b) => a - b);
      return this.show(from, to);
    }
    const slice = this.sliceOf(event);
    if (slice) this.choose(slice);
  }

  hover(slice) {
    const {hovered} = this;
    if (hovered === slice || hovered && slice && hovered.hart === slice.hart && hovered.place === slice.place) return;
    this.hovered = slice;
    this.area.style.cursor = slice ? "pointer" : "";
    this.canvas.title = slice ? this.nameOf(slice.node) : "";
    this.tell(slice || this.at);
    const node = slice ? this.graphNode(slice.node) : -1;
    view.icicle.hover(node);
    this.draw();
  }

  tell(slice) {
    document.getElementById("time-detail").textContent = slice ? this.describe(slice)
      : "A row for each hart, by its retired instructions";
  }

  // ---- selecting

  // The graph's node of a procedure of the whole profile; -1 where filters hide it, or it has no samples of what is
  // shown.
  graphNode(node) {
    const {graph} = view.icicle, at = profile.nodeOf ? profile.nodeOf[node] : node;
    const isThere = at >= 0 && profile.procedureOf(at) === this.trace.base.operand[node];
    const found = !isThere ? -1 : graph.nodeOf ? graph.nodeOf[at] : at;
    return found >= 0 && graph.inclusive[found] ? found : -1;
  }

  // Goes to a slice, and selects its procedure in the graph and in the table.
  choose(slice) {
    this.goTo(slice);
    const {icicle} = view, node = this.graphNode(slice.node);
    if (node < 0) return this.say(`${this.describe(slice)}: no samples of it are shown`);
    if (!icicle.graph.isBelow(node, icicle.root)) icicle.zoom(icicle.graph.count);
    icicle.select(node, {speaks: false});
    this.say(`${this.describe(slice)}, selected`);
  }

  // The slice that keys begin at, in view.
  goTo(slice) {
    Object.assign(this, {at: slice, hart: slice.hart});
    this.tell(slice);
    const length = this.to - this.from;
    if (slice.to <= this.from || slice.from >= this.to) this.show(slice.from - length / 2, slice.from + length / 2);
    this.draw();
  }

  say(words) { document.getElementById("time-spoken").textContent = words; }

  key(event) {
    if (event.ctrlKey || event.metaKey || event.altKey) return;
    const step = {ArrowLeft: -1, ArrowRight: 1, ArrowUp: 0, ArrowDown: 0, Home: 0, End: 0}[event.key];
    if (step !== undefined) this.move(event.key, step);
    else if (event.key === "Enter" || event.key === " ") { if (this.at) this.choose(this.at); }
    else {
      const does = {
        "+": () => this.zoomBy(1 / ZOOM_STEP), "=": () => this.zoomBy(1 / ZOOM_STEP), "-": () => this.zoomBy(ZOOM_STEP),
        PageUp: () => this.pan(-PAN_STEP), PageDown: () => this.pan(PAN_STEP),
        Escape: () => this.show(0, this.trace.span),
      }[event.key];
      if (!does) return;
      does();
      this.say(this.range());
    }
    event.preventDefault();
    event.stopPropagation();
  }

  // To the slice beside it, to the first or last of the hart, or to what another hart did at its middle.
  move(key, step) {
    const hart = Math.max(0, Math.min(this.slices.length - 1,
      this.hart + (key === "ArrowUp" ? -1 : key === "ArrowDown" ? 1 : 0)));
    const {ends, samples} = this.slices[hart], at = this.at && this.at.hart === hart ? this.at : null;
    const seen = this.trace.samplesAt(Math.floor(this.at ? this.middleOf(this.at) : this.from) + 1) - 1;
    let sample = Math.max(0, Math.min(samples - 1, seen));
    if (key === "Home") sample = 0;
    else if (key === "End") sample = samples - 1;
    else if (step && at) sample = step > 0 ? Math.min(ends[at.place], samples - 1)
      : at.place ? ends[at.place - 1] - 1 : 0;
    const slice = this.sliceAt(hart, sample);
    this.hart = hart;
    if (!slice) { this.at = null; this.draw(); return this.say(`${hartName(hart)}: no samples`); }
    this.goTo(slice);
    this.say(this.describe(slice));
  }

  // ---- drawing

  range() {
    const [from, to] = [Math.floor(this.from) + 1, Math.ceil(this.to)].map(at => grouped.format(at));
    return `instructions ${from} to ${to}`;
  }

  // What is selected in the graph or the tables is marked here.
  mark() {
    if (this.trace && this.marked !== view.icicle.procedure) this.redraw();
  }

  // Draws all anew with the next picture.
  redraw() {
    if (!this.trace) return;
    this.isOld = true;
    this.draw();
  }

  draw() {
    if (!this.isWaiting) requestAnimationFrame(() => { this.isWaiting = false; this.drawNow(); });
    this.isWaiting = true;
  }

  drawNow() {
    const {canvas, image} = this, ratio = devicePixelRatio || 1, height = this.thick * this.slices.length;
    this.width = this.area.clientWidth;
    if (!this.width) return;
    const size = [this.width, height].map(length => Math.round(length * ratio));
    if (canvas.width !== size[0] || canvas.height !== size[1]) {
      [canvas.width, canvas.height] = [image.width, image.height] = size;
      canvas.style.height = `${height}px`;
      this.isOld = true;
    }
    if (this.isOld) new TimelinePicture(this, image, ratio).draw();
    this.isOld = false;
    const pen = canvas.getContext("2d");
    pen.setTransform(1, 0, 0, 1, 0, 0);
    pen.clearRect(0, 0, ...size);
    pen.drawImage(image, 0, 0);
    pen.setTransform(ratio, 0, 0, ratio, 0, 0);
    this.outline(pen, this.hovered, themeColor("ink"), 1);
    this.outline(pen, this.at, themeColor("accent"), 2);
    if (this.dragged === undefined) return;
    pen.fillStyle = themeColor("accent");
    pen.globalAlpha = 0.35;
    pen.fillRect(Math.min(this.pressed, this.dragged), 0, Math.abs(this.dragged - this.pressed), height);
    pen.globalAlpha = 1;
  }

  // Where an instruction's left edge is on the screen.
  placeOf(moment) {
    const share = (moment - this.from) / (this.to - this.from);
    return this.gutter + Math.max(0, Math.min(1, share)) * (this.width - this.gutter);
  }

  outline(pen, slice, color, thick) {
    if (!slice || slice.to <= this.from || slice.from >= this.to) return;
    const left = this.placeOf(slice.from), right = this.placeOf(slice.to), half = thick / 2;
    pen.strokeStyle = color;
    pen.lineWidth = thick;
    pen.strokeRect(left + half, slice.hart * this.thick + half, Math.max(right - left - thick, 1), this.thick - thick);
  }
}
