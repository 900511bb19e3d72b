// The edges between panes, which the mouse and the arrow keys move. The share of the first pane is kept in a variable.

const STEP = 0.03, LEAST = 0.12;

class Edge {
  constructor(id, variable, axis, onMove) {
    this.element = document.getElementById(id);
    Object.assign(this, {variable, axis, onMove});
    const {element} = this;
    element.addEventListener("pointerdown", event => {
      element.setPointerCapture(event.pointerId);
      element.onpointermove = moved => this.set(this.shareAt(moved));
    });
    element.addEventListener("pointerup", () => { element.onpointermove = null; });
    element.addEventListener("keydown", event => this.key(event));
    this.set(Number(getComputedStyle(document.documentElement).getPropertyValue(variable)), false);
  }

  // Where the panes are below one another on a page that scrolls, a share is one of the window's height.
  shareAt(event) {
    const before = this.element.previousElementSibling.getBoundingClientRect();
    const after = this.element.nextElementSibling.getBoundingClientRect();
    const isOfWindow = getComputedStyle(this.element.parentElement).display === "block";
    if (this.axis === "y") return (event.clientY - before.top) / (isOfWindow ? innerHeight : after.bottom - before.top);
    return (event.clientX - before.left) / (after.right - before.left);
  }

  set(value, moves = true) {
    if (!Number.isFinite(value)) return;
    this.share = Math.max(LEAST, Math.min(1 - LEAST, value));
    document.documentElement.style.setProperty(this.variable, this.share.toFixed(3));
    this.element.setAttribute("aria-valuenow", Math.round(100 * this.share));
    this.element.setAttribute("aria-valuetext", `${Math.round(100 * this.share)} percent`);
    if (!moves) return;
    this.isMoved = true;
    this.onMove();
  }

  key(event) {
    const step = {ArrowUp: -STEP, ArrowLeft: -STEP, ArrowDown: STEP, ArrowRight: STEP, Home: -1, End: 1}[event.key];
    if (step === undefined) return;
    this.set(this.share + step);
    event.preventDefault();
  }
}
