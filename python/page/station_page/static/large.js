// A camera as large as the screen takes: pixel values under the pointer, the histogram with black and white point, and what is known of the camera.
import { ask } from "/static/link.js";
import { paint, sayAge, stretchWords } from "/static/stage.js";
import { byId, clock, colour, count, fullWords, lasting, length, lostFrames, lostWords, make, penOf, say, trimmed, zone } from "/static/words.js";

const LIGHT_EVERY = 700;
const FORMATS = { GREY: "grey", YM12: "colour 4:2:0", YM16: "colour 4:2:2", YM24: "colour 4:4:4" };

export class Large {
  /** `now` is the server's time in microseconds, null where it isn't known. */
  constructor(now) {
    this.name = null;
    this.now = now;
    this.canvas = byId("large-picture");
    this.point = null;
    this.lit = 0;
    this.canvas.onpointermove = (event) => this.over(event);
    this.canvas.onpointerdown = (event) => this.over(event);
    this.canvas.onpointerleave = () => this.leave();
    new ResizeObserver(() => this.fit()).observe(byId("frame"));
    const hist = byId("hist");
    hist.onpointerdown = (event) => this.grab(event);
    hist.onpointermove = (event) => this.drag(event);
    hist.onpointerup = hist.onpointercancel = () => { this.grabbed = null; };
    byId("black").onchange = byId("white").onchange = () => this.typed();
    byId("auto").onclick = () => this.auto();
    byId("as-stored").onclick = () => this.stretched(null);
  }

  /** Shows a camera. */
  open(name, camera) {
    this.name = name;
    this.camera = camera;
    this.head = null;
    this.light = null;
    this.lit = 0;
    this.leave();
    byId("stage").hidden = byId("events-side").hidden = true;
    byId("large").hidden = byId("large-side").hidden = false;
    Object.assign(this.canvas, { width: 4, height: 3 });
    say(byId("large-name"), name);
    this.canvas.setAttribute("aria-label", `${name}: its picture, large`);
    byId("large-none").hidden = true;
    say(byId("large-when"), "");
    byId("large-stretch").hidden = true;
    this.drawLight();
    this.opened?.(name);
    this.fit();
  }

  /** Shows all cameras again. */
  close() {
    this.name = null;
    this.opened?.(null);
    byId("stage").hidden = byId("events-side").hidden = false;
    byId("large").hidden = byId("large-side").hidden = true;
  }

  /** How wide a picture is wanted. */
  fit() {
    if (!this.name) return;
    const box = byId("frame"), ratio = this.camera?.width ? this.camera.width / this.camera.height : 4 / 3;
    box.style.setProperty("--ratio", ratio);
    const shown = Math.min(box.clientWidth, box.clientHeight * ratio) * Math.min(2, devicePixelRatio || 1);
    const wanted = Math.ceil(Math.max(64, Math.min(this.camera?.width || 640, shown)) / 64) * 64;
    if (wanted !== this.width) {
      this.width = wanted;
      this.resized?.();
    }
    this.place();
  }

  /** Shows how the camera stands. */
  show(camera, more) {
    this.camera = camera;
    const chip = byId("large-chip");
    chip.hidden = camera.level === "good";
    chip.className = `chip ${camera.level}`;
    say(chip, camera.short || "");
    say(byId("large-size"), camera.width ? `${camera.width}\u00d7${camera.height} \u00b7 ${FORMATS[camera.format] || camera.format}, ${camera.bits || 8} bits` : "no store");
    if (!camera.newest) this.none(camera.state);
    this.facts(camera, more);
  }

  facts(camera, more) {
    const events = (camera.clips || []).length;
    const rows = [
      ["State", camera.state, camera.level !== "good"],
      ["Rate", camera.rate ? `${camera.rate.toFixed(1)} of ${trimmed(camera.asked_rate.toFixed(1))} a second` : "none", camera.rate && camera.rate < 0.95 * camera.asked_rate],
      ["Gaps", gapWords(camera)],
      ["Holds", camera.seconds ? `${lasting(camera.seconds)}, ${camera.frames.toLocaleString("en")} frames` : "nothing"],
      ["Locked", camera.locked === undefined ? "nothing" : `${count(events, "clip")}, ${Math.round(camera.locked * 100)} %`, camera.locked > 0.8],
      ["Behind", camera.behind === null ? "unknown" : `${camera.behind.toFixed(1)} s`, camera.behind > 0.5],
      ["Lost", lostWords(camera), lostFrames(camera) > 0],
      ...(Math.abs(camera.clock_us ?? 0) > 1e6 ? [["Clock", `${camera.clock_us > 0 ? "+" : "\u2212"}${length(Math.abs(camera.clock_us) / 1e6)}`, true]] : []),
      ...(camera.full ? [["When full", fullWords(camera.full)]] : []),
      ...(more?.disk || []),
      ["Source", more?.source || "unknown"],
    ];
    const list = byId("facts"), wanted = rows.flatMap(([word, text, isIll]) => [make("dt", {}, word), make("dd", { className: isIll ? "ill" : "" }, text)]);
    if (list.children.length !== wanted.length) list.replaceChildren(...wanted);
    wanted.forEach((element, place) => {
      say(list.children[place], element.textContent);
      list.children[place].className = element.className;
    });
  }

  /** Shows a picture that has come. */
  take(head, bytes) {
    if (head.camera !== this.name) return;
    head.came = performance.now();
    paint(this.canvas, bytes, () => {
      if (head.camera !== this.name) return;
      this.head = head;
      this.old();
      byId("frame").classList.remove("blank");
      byId("large-none").hidden = true;
      byId("frame").dataset.number = head.number;
      say(byId("large-when"), `${clock(head.time, 3)} ${zone(head.time)} \u00b7 frame ${head.number.toLocaleString("en")} \u00b7 sequence ${head.sequence.toLocaleString("en")}`);
      byId("large-stretch").hidden = !head.stretch;
      say(byId("large-stretch"), stretchWords(head.stretch));
      this.points(head.stretch);
      this.placed?.();
      this.value();
      this.askLight();
    });
  }

  /** Says how old the picture is, as on a tile. */
  old() {
    sayAge(byId("large-age"), this.name ? this.head : null, this.now());
  }

  /** There is no picture. */
  none(text) {
    byId("frame").classList.add("blank");
    byId("large-none").hidden = false;
    delete byId("frame").dataset.number;
    say(byId("large-none"), text);
    this.head = null;
    this.leave();
  }

  blank(head) {
    if (head.camera === this.name) this.none(head.live ? this.camera?.state || "No picture yet." : "No frame of this moment.");
  }

  /** Says of which moment the picture is. */
  at(moment, words) {
    say(byId("large-ago"), moment === null ? "live" : words.replace(" ago", " before now"));
  }

  // ---------------------------------------------------------------------------------------------- pixels

  /** Where the picture is drawn within its element, which it fills in its own ratio. */
  box() {
    const whole = this.canvas.getBoundingClientRect(), ratio = this.canvas.width / this.canvas.height;
    const width = Math.min(whole.width, whole.height * ratio), height = width / ratio;
    return { left: whole.left + (whole.width - width) / 2, top: whole.top + (whole.height - height) / 2, width, height };
  }

  over(event) {
    const box = this.box(), { width, height } = this.camera || {};
    const x = (event.clientX - box.left) / box.width, y = (event.clientY - box.top) / box.height;
    if (!width || x < 0 || y < 0 || x >= 1 || y >= 1) return this.leave();
    this.point = { x: Math.floor(x * width), y: Math.floor(y * height) };
    this.value();
  }

  leave() {
    this.point = null;
    byId("cross").hidden = byId("read").hidden = true;
  }

  /** Shows a pixel's value, as the store has it. One is asked for at a time. */
  async value() {
    if (!this.point || !this.head) return;
    this.place();
    if (this.isAsking) return;
    this.isAsking = true;
    const { x, y } = this.point, { camera } = this.head, number = nameOf(this.head);
    try {
      const found = await ask(`/api/cameras/${encodeURIComponent(camera)}/frames/${number}/value?x=${x}&y=${y}`);
      if (this.point && camera === this.name) {
        const values = Object.entries(found.values), text = values.length === 1 ? String(values[0][1]) : values.map(([word, value]) => `${word} ${value}`).join("  ");
        byId("read").replaceChildren(`x ${found.x} y ${found.y}`, make("b", {}, text));
        byId("cross").hidden = byId("read").hidden = false;
        this.place();
      }
    } catch {
      // The frame was overwritten just now: the next picture asks again.
    }
    this.isAsking = false;
    if (this.point && (this.point.x !== x || this.point.y !== y)) this.value();
  }

  /** Puts the mark on its pixel, and the value beside it. */
  place() {
    this.placed?.();
    if (!this.point || !this.camera?.width) return;
    const box = this.box(), frame = byId("frame").getBoundingClientRect();
    const left = box.left - frame.left + (this.point.x + 0.5) / this.camera.width * box.width, top = box.top - frame.top + (this.point.y + 0.5) / this.camera.height * box.height;
    Object.assign(byId("cross").style, { left: `${left}px`, top: `${top}px` });
    const read = byId("read"), isRight = left > frame.width - 190;
    Object.assign(read.style, { left: isRight ? "" : `${left + 18}px`, right: isRight ? `${frame.width - left + 18}px` : "", top: `${Math.max(34, Math.min(frame.height - 80, top - 44))}px` });
  }

  // ---------------------------------------------------------------------------------------------- light

  /** Asks how often each brightness is there, now and then. */
  async askLight() {
    const now = performance.now();
    if (now - this.lit < LIGHT_EVERY || !this.head) return;
    this.lit = now;
    const { camera } = this.head, number = nameOf(this.head);
    const found = await ask(`/api/cameras/${encodeURIComponent(camera)}/frames/${number}/light`).catch(() => null);
    if (!found || camera !== this.name) return;
    this.light = found;
    this.lighted?.(found);
    this.drawLight();
  }

  /** Draws the histogram, by the root of each count so that few pixels are seen too, and both points. */
  drawLight() {
    const { pen, width, height } = penOf(byId("hist"));
    const counts = this.light?.counts;
    if (counts) {
      const most = Math.max(1, ...counts.map(Math.sqrt)), wide = width / counts.length;
      pen.fillStyle = colour("accent");
      counts.forEach((number, value) => {
        const tall = Math.sqrt(number) / most * (height - 4);
        pen.fillRect(value * wide, height - tall, Math.max(1, wide), tall);
      });
    }
    const [black, white] = this.head?.stretch || [0, this.most()];
    pen.fillStyle = colour("range");
    for (const value of [black, white]) pen.fillRect(Math.min(width - 2, value / (this.most() + 1) * width), 0, 2, height);
  }

  /** The largest value. */
  most() {
    return 2 ** (this.light?.bits || this.camera?.bits || 8) - 1;
  }

  /** Writes both points into their fields, unless somebody types there. */
  points(stretch) {
    const [black, white] = stretch || [0, this.most()];
    for (const [id, value] of [["black", black], ["white", white]]) {
      if (byId(id) !== document.activeElement && !this.grabbed) byId(id).value = value;
    }
    byId("auto").setAttribute("aria-pressed", String(this.wish?.(this.name) === "auto"));
  }

  auto() {
    if (this.name) this.stretched(this.wish(this.name) === "auto" ? null : "auto");
  }

  typed() {
    const black = Number.parseInt(byId("black").value, 10), white = Number.parseInt(byId("white").value, 10);
    if (black >= 0 && white > black && white <= this.most()) this.stretched([black, white]);
    else this.points(this.head?.stretch);
  }

  /** A point is taken hold of: the nearer one. */
  grab(event) {
    const value = this.valueAt(event), [black, white] = this.head?.stretch || [0, this.most()];
    this.grabbed = { which: Math.abs(value - black) < Math.abs(value - white) ? 0 : 1, points: [black, white] };
    event.target.setPointerCapture(event.pointerId);
    this.drag(event);
  }

  drag(event) {
    if (!this.grabbed) return;
    const { which, points } = this.grabbed, value = this.valueAt(event);
    points[which] = which ? Math.max(points[0] + 1, value) : Math.min(points[1] - 1, value);
    byId(which ? "white" : "black").value = points[which];
    this.stretched([...points]);
  }

  valueAt(event) {
    const box = event.target.getBoundingClientRect();
    return Math.round(Math.min(1, Math.max(0, (event.clientX - box.left) / box.width)) * this.most());
  }
}

/** A frame's name within its camera: its number, and before it its store's where there are several. */
const nameOf = ({ store, number }) => (store === undefined ? number : `${store}.${number}`);

/** The gaps of a camera's held frames. */
function gapWords(camera) {
  const pieces = camera.pieces || [], holes = [];
  for (let place = 1; place < pieces.length; place++) {
    const [, last, , until, , store] = pieces[place - 1], [first, , since, , other] = pieces[place];
    if (first === last + 1 && store === other) holes.push([until, since]);
  }
  if (!holes.length) return "none";
  const [from, to] = holes.at(-1);
  return `${count(holes.length, "gap")}, the last ${length(Math.max(0, to - from) / 1e6)} at ${clock(from)}`;
}
