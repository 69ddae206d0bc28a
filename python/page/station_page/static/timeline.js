// One timeline for all cameras, a lane each: what is held, gaps, events, what goes next, and now. It shows a span of time that follows the clock, or stands.
import { causeAt, causeWords, changeWords } from "/static/search.js";
import { byId, clock, colour, length, make, mark, penOf, say, zone } from "/static/words.js";

const SECOND = 1e6;
const DRAG = 5;
const LEAST = 10 * SECOND;
const STEPS = [1, 2, 5, 10, 15, 30, 60, 120, 300, 600, 900, 1800, 3600, 7200, 10800, 21600, 43200, 86400];
const ZOOM = 1.4;
// The part of a lane that its name may take beside its track; a longer one stands above it.
const NAME_PART = 1 / 3;
const NAME_GAP = 8;
// The height of the times above the lanes; half of the size of a cause's mark below them, and how near to it the pointer has to be; the shape of each kind.
const TIMES = 18;
const MARK = 5;
const NEAR_MARK = 9;
const SHAPES = {
  press: (pen, x, y) => pen.arc(x, y, MARK, 0, 2 * Math.PI),
  mqtt: (pen, x, y) => pen.rect(x - MARK, y - MARK, 2 * MARK, 2 * MARK),
  trigger: (pen, x, y) => corners(pen, [x, y - MARK - 1], [x + MARK + 1, y], [x, y + MARK + 1], [x - MARK - 1, y]),
  http: (pen, x, y) => corners(pen, [x, y - MARK], [x + MARK, y + MARK], [x - MARK, y + MARK]),
  setting: (pen, x, y) => { pen.rect(x - MARK, y - 1.5, 2 * MARK, 3); pen.rect(x - 1.5, y - MARK, 3, 2 * MARK); },
};
const CALLED = { press: "\u25cf press", trigger: "\u25c6 trigger", mqtt: "\u25a0 MQTT", http: "\u25b2 HTTP", setting: "\u271a camera set" };

/** A path through corners. */
function corners(pen, ...points) {
  points.forEach(([x, y], place) => (place ? pen.lineTo(x, y) : pen.moveTo(x, y)));
  pen.closePath();
}

export class Timeline {
  /** `told` has what the page does: scrub(time or null), pin(time), choose(range), step(by), live(). */
  constructor(told) {
    this.told = told;
    this.canvas = byId("tracks");
    this.scale = byId("scale");
    this.cameras = [];
    this.events = [];
    this.changes = [];
    this.span = 600 * SECOND;
    this.isAll = false;
    this.end = null;
    this.range = null;
    this.at = null;
    this.hover = this.held = null;
    this.skew = 0;
    // Until when the page knows what came, where it has lost its server.
    this.known = null;
    this.pointers = new Map();
    const canvas = this.canvas;
    canvas.onpointerdown = (event) => this.down(event);
    canvas.onpointermove = (event) => this.move(event);
    canvas.onpointerup = (event) => this.up(event);
    canvas.onpointercancel = (event) => this.cancel(event);
    canvas.onpointerleave = () => this.leave();
    this.scale.onpointermove = (event) => { this.scale.title = this.causeAt(event)?.words || ""; };
    this.scale.onclick = (event) => this.causeAt(event) && this.told.pin(this.causeAt(event).at);
    canvas.addEventListener("wheel", (event) => this.wheel(event), { passive: false });
    for (const button of document.querySelectorAll(".zooms button")) button.onclick = () => this.zoomTo(button.dataset.span);
    this.above = 0;
    new ResizeObserver(() => this.draw()).observe(canvas);
    new ResizeObserver(() => this.fitNames()).observe(byId("line"));
    setInterval(() => this.draw(), 250);
    this.telling();
  }

  /** Now, by the server's clock, in microseconds. */
  now() {
    return Date.now() * 1000 + this.skew;
  }

  /** Shows how the cameras stand. */
  show(cameras, now) {
    this.skew = now * SECOND - Date.now() * 1000;
    const names = cameras.map((camera) => camera.name).join();
    if (!this.names) this.isAll = Math.min(...cameras.filter((camera) => camera.oldest).map((camera) => camera.oldest[1])) > now * SECOND - this.span;
    if (names !== this.names) {
      this.names = names;
      byId("names").replaceChildren(...cameras.map((camera) => make("li", {}, make("span", {}, camera.name))));
      this.canvas.style.height = `calc(${cameras.length} * var(--lane))`;
      this.fitNames();
      this.telling();
    }
    this.cameras = cameras;
    this.draw();
  }

  /** The events whose causes are marked above the lanes. */
  caused(events) {
    this.events = events;
    const has = (kind) => (kind === "setting" ? this.changes.length : events.some((event) => event.cause?.kind === kind));
    const kinds = Object.keys(CALLED).filter(has);
    byId("causes-key").hidden = !kinds.length;
    say(byId("causes-key"), kinds.map((kind) => CALLED[kind]).join("  "));
    this.draw();
  }

  /** What was changed of cameras, which is marked as causes are. */
  changed(changes) {
    if (changes.length === this.changes.length && changes.at(-1)?.at_us === this.changes.at(-1)?.at_us) return;
    this.changes = changes;
    this.caused(this.events);
  }

  /** The causes of what is shown, each with its place, its moment and its words. */
  causes() {
    const names = new Set(this.cameras.map((camera) => camera.name)), [begin, end] = this.window(), width = this.scale.clientWidth;
    const at = (moment, kind, words) => ({ x: (moment - begin) / (end - begin) * width, at: moment, kind, words: `${clock(moment, 1)} ${words}` });
    const changes = this.changes.filter(({ camera }) => names.has(camera)).map((it) => at(it.at_us, "setting", changeWords(it)));
    return [...changes, ...this.events.filter((event) => event.cause && event.cameras.some((name) => names.has(name))).map((event) => at(causeAt(event), event.cause.kind, causeWords(event)))];
  }

  /** The cause under the pointer. */
  causeAt(event) {
    const x = event.clientX - this.scale.getBoundingClientRect().left, apart = (it) => Math.abs(it.x - x);
    return this.causes().filter((it) => apart(it) <= NEAR_MARK).sort((one, other) => apart(one) - apart(other))[0];
  }

  /** The moment of the next event's cause after a time, or of the one before it; nothing where there is none. */
  beside(time, by) {
    const times = this.events.map(causeAt).filter((it) => (by > 0 ? it > time + 1000 : it < time - 1000));
    return times.length ? (by > 0 ? Math.min(...times) : Math.max(...times)) : null;
  }

  /** Gives the names the room that the longest one needs: beside the tracks, or above each where that would leave them too little. */
  fitNames() {
    const line = byId("line"), lanes = byId("lanes"), names = [...byId("names").querySelectorAll("span")], wide = lanes.clientWidth;
    if (!names.length || !wide) return;
    lanes.classList.remove("above");
    const longest = Math.ceil(Math.max(...names.map((name) => name.getBoundingClientRect().width))) + NAME_GAP, isAbove = longest > wide * NAME_PART;
    lanes.classList.toggle("above", isAbove);
    line.style.setProperty("--names", `${isAbove ? 0 : longest}px`);
    this.above = isAbove ? Math.ceil(Math.max(...names.map((name) => name.getBoundingClientRect().height))) : 0;
    line.style.setProperty("--above", `${this.above}px`);
    this.draw();
  }

  /** From when something is held. */
  oldest() {
    return Math.min(this.now() - LEAST, ...this.cameras.filter((camera) => camera.oldest).map((camera) => camera.oldest[1]));
  }

  /** The times at both ends of what is shown. Under the pointer it stands still. */
  window() {
    const end = this.end ?? this.held ?? this.now();
    if (!this.isAll) return [end - this.span, end];
    const since = this.oldest();
    return [since - (end - since) * 0.01, end];
  }

  timeAt(event) {
    const box = this.canvas.getBoundingClientRect(), [begin, end] = this.window();
    const share = Math.min(1, Math.max(0, (event.clientX - box.left) / Math.max(1, box.width)));
    return begin + share * (end - begin);
  }

  /** Shows a span that a button names, up to now. */
  zoomTo(span) {
    this.isAll = span === "all";
    if (!this.isAll) this.span = Number(span) * SECOND;
    this.end = null;
    this.telling();
    this.draw();
  }

  /** Shows a time as large as can be: an event's, or a range. */
  reveal(from, to) {
    const spare = Math.max((to - from) * 0.04, SECOND / 2);
    this.isAll = false;
    this.span = Math.max(LEAST, to - from + 2 * spare);
    this.end = (from + to) / 2 + this.span / 2;
    this.follow();
    this.telling();
    this.draw();
  }

  /** Remembers what is shown, until `back`. */
  leaveOff() {
    this.before ??= { span: this.span, isAll: this.isAll };
  }

  /** Follows the clock again, as it did before. */
  back() {
    if (this.before) ({ span: this.span, isAll: this.isAll } = this.before);
    this.before = null;
    this.end = null;
    this.telling();
    this.draw();
  }

  /** Zooms about a time, which stays where it is. Once all is shown, it stays at that. */
  zoom(factor, time) {
    const [begin, end] = this.window(), all = (this.now() - this.oldest()) * 1.01;
    if (this.held) this.held = this.now();
    const about = time ?? (this.at !== null && this.at > begin && this.at < end ? this.at : end);
    const span = Math.max(LEAST, (end - begin) * factor);
    this.isAll = span >= all;
    if (!this.isAll) this.span = span;
    this.end = this.isAll ? null : about + (end - about) * (span / (end - begin));
    this.follow();
    this.telling();
    this.draw();
  }

  /** Moves what is shown, by a part of it. */
  pan(share) {
    if (this.isAll) return;
    this.end = Math.max(this.oldest() + this.span / 2, (this.end ?? this.now()) + share * this.span);
    this.follow();
    this.draw();
  }

  /** Follows the clock where the end is near it. */
  follow() {
    if (this.end !== null && this.end >= this.now() - this.span * 0.005) this.end = null;
  }

  /** Moves what is shown so that a time is within. */
  see(time) {
    const [begin, end] = this.window();
    if (this.isAll || (time >= begin && time <= end)) return;
    this.end = time + this.span * 0.5;
    this.follow();
  }

  /** Says which span the buttons name. */
  telling() {
    for (const button of document.querySelectorAll(".zooms button")) {
      const is = button.dataset.span === "all" ? this.isAll : !this.isAll && this.end === null && Number(button.dataset.span) * SECOND === this.span;
      button.classList.toggle("on", is);
      button.setAttribute("aria-pressed", String(is));
    }
  }

  /** Where the pictures stand; none where they are live. */
  cursor(time) {
    this.at = time;
    if (time !== null) this.see(time);
    this.draw();
  }

  /** Sets the range. */
  choose(range) {
    this.range = range;
    this.anchor = null;
    this.told.choose(range);
    this.draw();
  }

  /** Sets one end of the range, and the other one where it isn't there or is on the wrong side. */
  bound(which, time) {
    const range = this.range ? { ...this.range } : { from: time, to: time };
    range[which] = time;
    if (range.from > range.to) range[which === "from" ? "to" : "from"] = time;
    this.choose(range);
  }

  /** Makes the range longer by keys: from where it began to a time. */
  extend(from, to) {
    const anchor = this.anchor ?? from;
    this.choose({ from: Math.min(anchor, to), to: Math.max(anchor, to) });
    this.anchor = anchor;
  }

  down(event) {
    if (event.button) return;
    this.canvas.setPointerCapture(event.pointerId);
    this.pointers.set(event.pointerId, event.clientX);
    if (this.pointers.size === 2) {
      this.isDrag = false;
      this.from = null;
      this.apart = this.distance();
      return;
    }
    this.from = { x: event.clientX, time: this.timeAt(event) };
    this.isDrag = false;
  }

  /** How far two fingers are apart. */
  distance() {
    const [one, other] = [...this.pointers.values()];
    return Math.max(10, Math.abs(one - other));
  }

  move(event) {
    this.held ??= this.now();
    if (this.pointers.has(event.pointerId)) this.pointers.set(event.pointerId, event.clientX);
    if (this.pointers.size === 2) {
      const apart = this.distance(), box = this.canvas.getBoundingClientRect();
      const middle = [...this.pointers.values()].reduce((sum, x) => sum + x, 0) / 2;
      this.zoom(this.apart / apart, this.timeAt({ clientX: Math.min(middle, box.right) }));
      this.apart = apart;
      return;
    }
    const time = this.timeAt(event);
    this.hover = Math.min(time, this.now());
    this.told.scrub(this.hover);
    if (this.from) {
      this.isDrag ||= Math.abs(event.clientX - this.from.x) > DRAG;
      if (this.isDrag) this.choose({ from: Math.min(this.from.time, time), to: Math.min(this.now(), Math.max(this.from.time, time)) });
    }
    this.draw();
  }

  up(event) {
    this.pointers.delete(event.pointerId);
    const from = this.from;
    this.from = null;
    if (from && !this.isDrag) this.told.pin(from.time);
    if (event.pointerType !== "mouse") this.leave();
  }

  cancel(event) {
    this.pointers.delete(event.pointerId);
    this.from = null;
    this.leave();
  }

  leave() {
    if (this.from) return;
    this.hover = this.held = null;
    this.told.scrub(null);
    this.draw();
  }

  wheel(event) {
    if (event.altKey) return;
    event.preventDefault();
    const sideways = event.shiftKey ? event.deltaY : event.deltaX;
    if (Math.abs(sideways) > Math.abs(event.shiftKey ? 0 : event.deltaY)) this.pan(sideways / 800);
    else if (event.deltaY) this.zoom(ZOOM ** (event.deltaY / 100), this.timeAt(event));
  }

  /** What is read aloud. */
  name(text) {
    const [begin, end] = this.window();
    const canvas = this.canvas;
    this.bounds(begin, end);
    const cause = this.at === null ? null : this.events.find((event) => event.cause && Math.abs(causeAt(event) - this.at) < SECOND / 2);
    canvas.setAttribute("aria-valuetext", cause ? `${text}, ${causeWords(cause)}` : text);
  }

  /** From when to when the timeline is, and where the pictures stand, as it is heard. */
  bounds(begin, end) {
    for (const [word, time] of [["min", begin], ["max", end], ["now", this.at ?? end]]) mark(this.canvas, `aria-value${word}`, String(Math.floor(time / 1000)));
  }

  // ---------------------------------------------------------------------------------------------- drawing

  /** Draws all of it. */
  draw() {
    if (!this.cameras.length) return;
    const [begin, end] = this.window();
    this.bounds(begin, end);
    const { pen, width, height } = penOf(this.canvas);
    this.x = (time) => (time - begin) / (end - begin) * width;
    const high = height / this.cameras.length;
    this.cameras.forEach((camera, place) => this.drawLane(pen, camera, place * high, high, width));
    if (this.range) this.drawRange(pen, height);
    this.drawLine(pen, this.now(), height, colour("press"), 2);
    if (this.at !== null) this.drawLine(pen, this.at, height, colour("range"), 2);
    if (this.hover !== null) this.drawLine(pen, this.hover, height, colour("ink"), 1);
    this.drawScale(begin, end);
  }

  /** An upright line at a time. */
  drawLine(pen, time, height, style, wide) {
    pen.fillStyle = style;
    pen.fillRect(Math.min(this.x(time), pen.canvas.clientWidth - wide / 2) - wide / 2, 0, wide, height);
  }

  /** A camera's lane: what is held, and above it its clips and what goes next. Where nothing is held, upright stripes. */
  drawLane(pen, camera, y, high, width) {
    const room = high - this.above, top = y + this.above + room * 0.2, tall = room * 0.6;
    const known = Math.min(this.known ?? Infinity, camera.known_us ?? Infinity), now = Math.min(width, this.x(this.now()));
    const until = Math.max(0, Math.min(now, known === Infinity ? now : this.x(known)));
    pen.fillStyle = striped(pen, colour("edge"), 0);
    pen.fillRect(0, top, until, tall);
    if (until < now) this.drawUnknown(pen, until, top, now - until, tall);
    if (!camera.pieces) return;
    const fill = (from, to, style, spare = 0) => {
      const left = Math.max(0, this.x(from)), right = Math.min(width, Math.max(this.x(to), this.x(from) + 2));
      if (right <= 0 || left >= width) return;
      pen.fillStyle = style;
      pen.fillRect(left, top - spare, right - left, tall + 2 * spare);
    };
    const period = SECOND / (camera.asked_rate || 25);
    for (const [, , since, until] of camera.pieces) {
      fill(since, until + period, colour("panel"));
      fill(since, until + period, colour("held"));
    }
    for (const [, , , since, until] of camera.clips || []) fill(since, until + period, colour("clip"), room * 0.1);
    // A mark at the foot of the lane where frames were lost.
    for (const [since, until] of camera.holes || []) {
      const left = Math.max(0, this.x(since)), right = Math.min(width, Math.max(this.x(until), this.x(since) + 3));
      if (right <= 0 || left >= width) continue;
      pen.fillStyle = colour("panel");
      pen.fillRect(left - 1, top + tall / 2, right - left + 2, tall / 2);
      pen.fillStyle = colour("bad");
      pen.fillRect(left, top + tall / 2 + 1, right - left, tall / 2 - 1);
    }
    const next = nextOf(camera);
    if (next) {
      fill(...next, colour("panel"));
      fill(...next, striped(pen, colour("bad"), 1));
    }
  }

  /** A time of which nobody knows here what came: no stripes, which say that nothing did. */
  drawUnknown(pen, left, top, wide, tall) {
    pen.fillStyle = colour("raised");
    pen.fillRect(left, top, wide, tall);
    if (wide < 60) return;
    pen.fillStyle = colour("faint");
    pen.font = "11px system-ui, sans-serif";
    pen.textBaseline = "middle";
    pen.fillText("unknown", left + 4, top + tall / 2);
  }

  /** The range that is chosen. */
  drawRange(pen, height) {
    const left = this.x(this.range.from), wide = Math.max(3, this.x(this.range.to) - left);
    pen.save();
    pen.globalAlpha = 0.28;
    pen.fillStyle = colour("range");
    pen.fillRect(left, 0, wide, height);
    pen.restore();
    pen.strokeStyle = colour("range");
    pen.lineWidth = 2;
    pen.strokeRect(left, 1, wide, height - 2);
  }

  /** Times of the day above, at round ones, as many as fit. */
  drawScale(begin, end) {
    const { pen, width, height } = penOf(this.scale);
    const seconds = (end - begin) / SECOND, room = seconds < 3 * STEPS.length ? 70 : 62;
    const step = (STEPS.find((it) => width / (seconds / it) >= room + 14) || 86400) * SECOND;
    const shift = -new Date(end / 1000).getTimezoneOffset() * 60 * SECOND;
    pen.font = "12px system-ui, sans-serif";
    pen.textBaseline = "middle";
    const nowAt = (this.now() - begin) / (end - begin) * width, isNow = nowAt <= width + 1;
    if (isNow) {
      pen.fillStyle = colour("ink");
      pen.fillText("now", width - 24, TIMES / 2);
    }
    for (let time = Math.ceil((begin + shift) / step) * step - shift; time <= end; time += step) {
      const at = (time - begin) / (end - begin) * width, text = clock(time).slice(0, step < 60 * SECOND ? undefined : -3);
      const wide = pen.measureText(text).width;
      pen.fillStyle = colour("edge-strong");
      pen.fillRect(at, TIMES - 4, 1, 4);
      if (at + 4 + wide > width - (isNow ? 32 : 0)) continue;
      pen.fillStyle = colour("faint");
      pen.fillText(text, at + 3, TIMES / 2);
    }
    this.drawCauses();
  }

  /** A mark where each event was asked for, by its kind's shape, between the times and the lanes. */
  drawCauses() {
    const pen = this.scale.getContext("2d"), { clientWidth: width, clientHeight: height } = this.scale;
    const shown = this.causes().filter(({ x }) => x >= 0 && x <= width);
    for (const { x, kind } of shown) {
      pen.beginPath();
      (SHAPES[kind] || SHAPES.http)(pen, Math.min(width - MARK, Math.max(MARK, x)), height - MARK - 2);
      pen.fillStyle = colour(kind === "press" ? "press" : "clip");
      pen.fill();
      pen.lineWidth = 1.5;
      pen.strokeStyle = colour("panel");
      pen.stroke();
    }
    this.scale.dataset.causes = shown.map(({ kind }) => kind).join(" ");
  }
}

/** The time of the block that is overwritten next. */
export function nextOf(camera) {
  if (!camera.removed_next) return null;
  const [first, last, store, from, to] = camera.removed_next;
  if (store !== undefined) return [from, to];
  const piece = camera.pieces.find((it) => it[0] <= last && it[1] >= first);
  if (!piece) return null;
  const [begin, end, since, until] = piece;
  const time = (number) => since + (end > begin ? (Math.min(Math.max(number, begin), end) - begin) / (end - begin) : 0) * (until - since);
  return [time(first), time(last)];
}

/** A range in words. */
export function rangeWords(range) {
  return `${clock(range.from, 1)} to ${clock(range.to, 1)} ${zone(range.to)}, ${length((range.to - range.from) / SECOND)}`;
}

const patterns = new Map();

/** A pattern of stripes: upright, or aslant. */
function striped(pen, front, slant) {
  const key = `${front} ${slant}`;
  if (!patterns.has(key)) {
    const tile = new OffscreenCanvas(6, 6), ink = tile.getContext("2d");
    ink.strokeStyle = front;
    ink.lineWidth = slant ? 2 : 1;
    ink.beginPath();
    for (const shift of [-6, 0, 6]) {
      ink.moveTo(shift + 3 - slant * 3, 6);
      ink.lineTo(shift + 3 + slant * 3, 0);
    }
    ink.stroke();
    patterns.set(key, pen.createPattern(tile, "repeat"));
  }
  return patterns.get(key);
}
