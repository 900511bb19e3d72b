// The picture of a timeline: its rows, pixel by pixel, and the key of the procedures that are seen.

class TimelinePicture {
  constructor(timeline, image, ratio) {
    const {trace, slices, from, to, gutter, thick} = timeline;
    Object.assign(this, {timeline, trace, slices, from, to, gutter, thick, ratio});
    this.pen = image.getContext("2d");
    // Rows are drawn in the screen's own pixels.
    this.left = Math.round(gutter * ratio);
    this.pixels = image.width - this.left;
    this.seen = new Map();
    timeline.marked = view.icicle.procedure;
  }

  draw() {
    const {pen, timeline, ratio} = this;
    this.look = Object.fromEntries(["ink", "soft", "accent", "mono"].map(name => [name, themeColor(name)]));
    pen.setTransform(1, 0, 0, 1, 0, 0);
    pen.clearRect(0, 0, pen.canvas.width, pen.canvas.height);
    pen.textBaseline = "middle";
    pen.font = `${12 * ratio}px ${this.look.mono}`;
    this.letter = pen.measureText("m").width;
    this.slices.forEach((_, hart) => this.drawHart(hart));
    this.drawNames();
    this.drawKey();
    document.getElementById("time-range").textContent = timeline.range();
  }

  // A run of pixels for each slice that has one. A pixel shows the instruction at its right edge.
  drawHart(hart) {
    const {nodes, ends, samples} = this.slices[hart], {trace, from, pixels} = this, scale = (this.to - from) / pixels;
    const last = Math.min(pixels, Math.floor((trace.harts[hart].retired - from) / scale + 1e-9));
    const first = samples ? (trace.startOf(hart, 0) - from) / scale : pixels;
    let pixel = Math.max(0, Math.floor(first + 1e-9));
    while (pixel < last) {
      const instruction = Math.ceil(from + (pixel + 1) * scale - 1e-9);
      const place = firstFrom(ends, Math.min(samples, trace.samplesAt(instruction)));
      const until = Math.floor((trace.startOf(hart, ends[place]) - from) / scale + 1e-9);
      const end = place + 1 < nodes.length ? Math.max(pixel + 1, Math.min(last, until)) : last;
      this.drawRun(hart, nodes[place], pixel, end);
      pixel = end;
    }
  }

  drawRun(hart, node, from, to) {
    const {pen, ratio, left, look} = this, {operand, scope} = this.trace.base, of = operand[node];
    const top = Math.round(hart * this.thick * ratio), height = Math.round((hart + 1) * this.thick * ratio) - top;
    const gap = height > 6 * ratio ? Math.round(ratio) : 0;
    pen.fillStyle = colorOf(colorKey(scope[node], of));
    pen.fillRect(left + from, top, to - from, height - gap);
    this.seen.set(of, (this.seen.get(of) || 0) + to - from);
    if (of === this.timeline.marked && height > 6 * ratio) {
      pen.fillStyle = look.accent;
      pen.fillRect(left + from, top + height - gap - 2 * ratio, to - from, 2 * ratio);
    }
    const letters = height < 14 * ratio ? 0 : Math.floor((to - from) / this.letter - 1);
    const words = letters > 0 ? fitted(this.timeline.nameOf(node), letters) : "";
    if (!words) return;
    pen.fillStyle = look.ink;
    pen.fillText(words, left + from + 4 * ratio, top + (height - gap) / 2);
  }

  // The harts at the left, as many as there is room for.
  drawNames() {
    const {pen, ratio, slices, thick} = this, step = Math.ceil(LABEL / thick);
    const isShort = this.gutter < 40;
    pen.fillStyle = this.look.soft;
    for (let hart = 0; hart < slices.length; hart += step) {
      const {harts} = view.shown.base, name = isShort ? String(harts[hart]) : `hart ${harts[hart]}`;
      pen.fillText(name, 2 * ratio, (hart * thick + Math.min(thick * step, LABEL + 5) / 2) * ratio);
    }
  }

  // The procedures that most pixels have, with their colours.
  drawKey() {
    const all = [...this.seen].sort((a, b) => b[1] - a[1]);
    const items = all.slice(0, KEY_COLORS).map(([of]) => {
      const item = document.createElement("span");
      item.setAttribute("role", "listitem");
      item.textContent = shortened(profile.procedures[of], 30);
      item.title = profile.procedures[of];
      item.style.backgroundColor = colorOf(colorKey(PROC, of));
      return item;
    });
    if (all.length > items.length) {
      const more = document.createElement("span");
      more.setAttribute("role", "listitem");
      more.className = "facts";
      more.textContent = `and ${all.length - items.length} more`;
      items.push(more);
    }
    document.getElementById("time-key").replaceChildren(...items);
  }
}
