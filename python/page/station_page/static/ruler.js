// A line between two points of a large picture that stands, and how long it is in the picture's own pixels.
import { byId, mark, say, trimmed } from "/static/words.js";

const ARROWS = { ArrowLeft: [-1, 0], ArrowRight: [1, 0], ArrowUp: [0, -1], ArrowDown: [0, 1] };
const FAST = 10;
// How near the pointer has to be to an end that it takes hold of, in the screen's pixels.
const GRASP = 14;

/** A line in words: how far it goes to the right and down, its length, and its angle, upward from the right. */
export function lineWords([one, other]) {
  const x = other.x - one.x, y = other.y - one.y, angle = Math.atan2(-y, x) * 180 / Math.PI;
  return `${trimmed(Math.hypot(x, y).toFixed(2))} px, x ${x}, y ${y}, ${trimmed(angle.toFixed(1))}\u00b0`;
}

export class Ruler {
  /** `large` has the picture, and `stand` makes it stand still. */
  constructor(large, stand) {
    Object.assign(this, { large, stand, ends: null, held: null });
    byId("measure").onclick = () => this.toggle();
    this.handles = ["from", "to"].map((which) => byId(`ruler-${which}`));
    this.handles.forEach((handle, end) => {
      handle.onkeydown = (event) => this.key(event, end);
      handle.onpointerdown = (event) => this.grasp(event, end);
      handle.onpointermove = (event) => this.drag(event);
      handle.onpointerup = handle.onpointercancel = () => { this.held = null; };
    });
    const canvas = large.canvas;
    canvas.addEventListener("pointerdown", (event) => this.begin(event));
    canvas.addEventListener("pointermove", (event) => this.drag(event));
    canvas.addEventListener("pointerup", () => { this.held = null; });
    large.placed = () => this.place();
  }

  /** Measures, or doesn't any more. */
  toggle() {
    if (this.ends) this.close();
    else this.open();
  }

  open() {
    const { width, height } = this.large.camera || {};
    if (!width || !this.large.name) return;
    this.stand();
    const y = Math.floor(height / 2);
    this.ends = [{ x: Math.floor(width / 4), y }, { x: Math.floor(width * 3 / 4), y }];
    this.show();
    this.handles[1].focus();
  }

  close() {
    this.ends = this.held = null;
    this.show();
  }

  /** The pixel under the pointer, the nearest one of the picture. */
  pixel(event) {
    const box = this.large.box(), { width, height } = this.large.camera;
    const within = (share, count) => Math.min(count - 1, Math.max(0, Math.floor(share * count)));
    return { x: within((event.clientX - box.left) / box.width, width), y: within((event.clientY - box.top) / box.height, height) };
  }

  /** Where a pixel's middle is on the screen, beside the picture's frame. */
  spot({ x, y }) {
    const box = this.large.box(), frame = byId("frame").getBoundingClientRect(), { width, height } = this.large.camera;
    return { left: box.left - frame.left + (x + 0.5) / width * box.width, top: box.top - frame.top + (y + 0.5) / height * box.height };
  }

  grasp(event, end) {
    if (event.button) return;
    event.target.setPointerCapture(event.pointerId);
    this.held = end;
  }

  /** A new line begins under the pointer, or the end that is near it is taken hold of. */
  begin(event) {
    if (!this.ends || event.button) return;
    const frame = byId("frame").getBoundingClientRect(), x = event.clientX - frame.left, y = event.clientY - frame.top;
    const apart = this.ends.map((end) => Math.hypot(this.spot(end).left - x, this.spot(end).top - y)), near = apart.findIndex((it) => it < GRASP);
    this.large.canvas.setPointerCapture(event.pointerId);
    this.held = near < 0 ? 1 : near;
    if (near < 0) this.ends = [this.pixel(event), this.pixel(event)];
    this.show();
  }

  drag(event) {
    if (!this.ends || this.held === null) return;
    this.ends[this.held] = this.pixel(event);
    this.show();
  }

  /** An arrow moves an end by a pixel, with Shift by ten. */
  key(event, end) {
    const step = ARROWS[event.key], { width, height } = this.large.camera;
    if (!step) return;
    event.preventDefault();
    event.stopPropagation();
    const by = event.shiftKey ? FAST : 1, { x, y } = this.ends[end];
    this.ends[end] = { x: Math.min(width - 1, Math.max(0, x + step[0] * by)), y: Math.min(height - 1, Math.max(0, y + step[1] * by)) };
    this.show();
  }

  /** Shows the line and its length. */
  show() {
    const is = Boolean(this.ends);
    for (const element of [byId("ruler"), byId("measured"), ...this.handles]) element.hidden = !is;
    mark(byId("ruler"), "class", is ? "ruler" : "ruler off");
    mark(byId("measure"), "aria-pressed", String(is));
    if (!is) return;
    say(byId("measured"), lineWords(this.ends));
    this.handles.forEach((handle, end) => mark(handle, "aria-label", `${end ? "End" : "Beginning"} of the line: x ${this.ends[end].x}, y ${this.ends[end].y}`));
    this.place();
  }

  /** Puts the line where its pixels are on the screen. */
  place() {
    if (!this.ends || !this.large.camera?.width) return;
    const spots = this.ends.map((end) => this.spot(end));
    spots.forEach(({ left, top }, end) => {
      Object.assign(this.handles[end].style, { left: `${left}px`, top: `${top}px` });
      for (const line of byId("ruler").children) {
        line.setAttribute(`x${end + 1}`, left);
        line.setAttribute(`y${end + 1}`, top);
      }
    });
  }
}
