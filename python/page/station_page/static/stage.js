// The pictures of all cameras, in as many columns as make them largest.
import { byId, clock, lasting, lostFrames, make, mark, penOf, say } from "/static/words.js";

const RATIO = 4 / 3;
const GAP = 8;
// More columns have to make the pictures larger by this: few have more room beside them for words.
const NEARLY = 1.025;

/** Draws a JPEG on a canvas. Of two that come at nearly the same time the newer one stays. */
export async function paint(canvas, bytes, told) {
  const turn = canvas.turn = (canvas.turn || 0) + 1;
  const bitmap = await createImageBitmap(new Blob([bytes], { type: "image/jpeg" })).catch(() => null);
  if (!bitmap) return;
  if (turn > (canvas.drawn || 0)) {
    canvas.drawn = turn;
    if (canvas.width !== bitmap.width || canvas.height !== bitmap.height) Object.assign(canvas, { width: bitmap.width, height: bitmap.height });
    canvas.getContext("2d").drawImage(bitmap, 0, 0);
    told();
  }
  bitmap.close();
}

/** How a picture is stretched, in words; nothing where it isn't. */
export const stretchWords = (stretch) => (stretch ? `stretched for the eye: ${stretch[0]} to ${stretch[1]}` : "");

/** The seconds that a picture is old: what it was when it was sent, and what has passed since. */
export function ageOf(head, now) {
  const since = now === null ? (performance.now() - head.came) * 1000 : now - head.sent;
  return (head.age + Math.max(0, since)) / 1e6;
}

/** Shows on a picture how old it is, where it is live and that is a second or more. */
export function sayAge(element, head, now) {
  const seconds = head?.live && head.age !== undefined ? ageOf(head, now) : 0;
  element.hidden = seconds < 1;
  if (seconds >= 1) say(element, `${seconds < 100 ? seconds.toFixed(1) : Math.round(seconds)} s old`);
}

class Tile {
  constructor(name, place, open) {
    this.name = name;
    this.picture = make("canvas", { className: "picture", width: 4, height: 3 });
    this.ring = make("canvas", { className: "ring" });
    this.chip = make("span", { className: "chip", hidden: true });
    this.past = make("span", { className: "chip past num", hidden: true });
    this.eye = make("span", { className: "chip eye", hidden: true, title: "The picture is stretched for the eye; files keep every bit" }, "stretched");
    this.rate = make("span", { className: "chip rate num" });
    this.age = make("span", { className: "chip age num", hidden: true, title: "How old this picture is" });
    this.when = make("span");
    this.holds = make("span");
    this.lost = make("span", { className: "ill", title: "Frames that were lost since the station began" });
    this.none = make("p", { className: "none" }, "No picture yet.");
    this.button = make("button", { type: "button" });
    this.button.onclick = () => open(name);
    const title = make("h2", { title: place < 9 ? `${name}: key ${place + 1}` : name }, name), grow = () => make("span", { className: "grow" });
    for (const canvas of [this.picture, this.ring]) canvas.setAttribute("aria-hidden", "true");
    const top = make("header", {}, make("span", { className: "rec" }), title, grow(), this.past, this.age, this.eye, this.chip, this.rate);
    const bottom = make("footer", { className: "num" }, this.when, grow(), this.lost, this.holds);
    this.element = make("article", { className: "cam unknown blank" }, this.picture, this.none, top, bottom, this.ring, this.button);
    this.element.dataset.camera = name;
    this.shown = null;
  }

  /** Shows how the camera stands. */
  show(camera) {
    this.camera = camera;
    const level = camera.level === "bad" || camera.level === "warn" ? camera.level : camera.level === "good" ? "good" : "unknown";
    this.element.classList.remove("good", "warn", "bad", "unknown");
    this.element.classList.add(level);
    const chip = camera.level === "good" ? "" : camera.short || "";
    this.chip.hidden = !chip;
    this.chip.className = `chip ${level}`;
    say(this.chip, chip);
    this.rate.hidden = !camera.rate;
    if (camera.rate) say(this.rate, `${camera.rate.toFixed(1)} fps`);
    const lost = lostFrames(camera);
    say(this.lost, lost ? `${lost.toLocaleString("en")} lost` : "");
    say(this.holds, camera.seconds ? `holds ${lasting(camera.seconds)}` : "");
    mark(this.button, "aria-label", `${this.name}: ${camera.state} Show it large`);
    if (!this.shown) say(this.none, camera.newest ? "The picture comes." : camera.state);
    if (camera.width) this.ratio = camera.width / camera.height;
    this.drawRing(camera);
  }

  /** Shows a picture that has come, with its own age: not for a moment with that of the one before. */
  take(head, bytes, now) {
    head.came = performance.now();
    paint(this.picture, bytes, () => {
      this.shown = head;
      this.old(now());
      this.element.classList.remove("blank");
      this.none.hidden = true;
      this.element.dataset.number = head.number;
      this.count = (this.count || 0) + 1;
      say(this.when, `${clock(head.time, 3)}`);
      this.eye.hidden = !head.stretch;
      if (head.stretch) this.eye.title = stretchWords(head.stretch);
    });
  }

  /** Says how old a live picture is, from a second on: by the server's clock, or, where that isn't known, since it came. */
  old(now) {
    sayAge(this.age, this.shown, now);
  }

  /** There is no frame of the moment. */
  blank(head) {
    this.picture.turn = (this.picture.turn || 0) + 1;
    this.picture.drawn = this.picture.turn;
    this.shown = null;
    this.element.classList.add("blank");
    delete this.element.dataset.number;
    this.none.hidden = false;
    say(this.none, head.live ? this.camera?.state || "No picture yet." : "No frame of this moment.");
    say(this.when, "");
  }

  /** The ring as a line: what is held, and the clips. */
  drawRing(camera) {
    const { pen, width, height } = penOf(this.ring);
    pen.fillStyle = "#26333f";
    pen.fillRect(0, 0, width, height);
    if (!camera.oldest || !camera.frames) return;
    // Of several stores times are in order, and numbers aren't.
    const by = camera.stores ? 1 : 0;
    const first = camera.oldest[by], wide = Math.max(1, camera.newest[by] - first);
    const fill = (from, to, style) => {
      pen.fillStyle = style;
      pen.fillRect((from - first) / wide * width, 0, Math.max(2, (to - from) / wide * width), height);
    };
    for (const piece of camera.pieces) fill(piece[2 * by], piece[2 * by + 1], "#4da3ff");
    for (const clip of camera.clips) fill(clip[2 * by + 1], clip[2 * by + 2], "#b48cff");
  }
}

export class Stage {
  /** `open` shows a camera large; `now` is the server's time in microseconds, null where it isn't known. */
  constructor(open, now) {
    this.element = byId("stage");
    Object.assign(this, { open, now });
    this.tiles = new Map();
    this.only = null;
    this.moment = null;
    new ResizeObserver(() => this.fit()).observe(this.element);
  }

  /** Shows how all cameras stand. */
  show(cameras) {
    const names = cameras.map((camera) => camera.name);
    if (names.join() !== [...this.tiles.keys()].join()) {
      this.tiles = new Map(names.map((name, place) => [name, new Tile(name, place, this.open)]));
      this.element.replaceChildren(...[...this.tiles.values()].map((tile) => tile.element));
    }
    let isNew = false;
    for (const camera of cameras) {
      const tile = this.tiles.get(camera.name), ratio = tile.ratio;
      tile.show(camera);
      isNew ||= ratio !== tile.ratio;
    }
    if (isNew) this.fit();
  }

  /** Shows some cameras alone, as those of an event; or all. */
  limit(names) {
    this.only = names;
    for (const [name, tile] of this.tiles) tile.element.hidden = Boolean(names) && !names.includes(name);
    this.fit();
  }

  /** The tiles that are shown. */
  shown() {
    return [...this.tiles.values()].filter((tile) => !tile.element.hidden);
  }

  /** The number of columns with which the pictures are largest, each in its own ratio. */
  fit() {
    const tiles = this.shown(), width = this.element.clientWidth, isPhone = matchMedia("(max-width: 760px)").matches;
    if (!tiles.length || !width) return;
    let best = 1, most = 0;
    const height = isPhone ? innerHeight * 0.55 : this.element.clientHeight;
    for (let columns = 1; columns <= tiles.length; columns++) {
      const rows = Math.ceil(tiles.length / columns), wide = (width - GAP * (columns - 1)) / columns, high = (height - GAP * (rows - 1)) / rows;
      if (high < 10 || wide < 10) continue;
      const area = tiles.reduce((sum, tile) => sum + Math.min(wide, high * (tile.ratio || RATIO)) ** 2 / (tile.ratio || RATIO), 0);
      if (area > most * NEARLY) [best, most] = [columns, area];
    }
    if (isPhone) best = Math.min(Math.max(best, tiles.length > 1 ? 2 : 1), tiles.length > 6 ? 3 : 2);
    this.element.style.setProperty("--cols", best);
    this.element.classList.toggle("small", width / best < 200);
    for (const tile of tiles) tile.element.style.setProperty("--ratio", tile.ratio || RATIO);
    this.columns = best;
    const cell = tiles[0].element.getBoundingClientRect();
    const wide = isPhone ? cell.width : Math.max(...tiles.map((tile) => Math.min(cell.width, cell.height * (tile.ratio || RATIO))));
    const wanted = Math.ceil(wide * Math.min(2, devicePixelRatio || 1) / 64) * 64;
    if (wanted !== this.width) {
      this.width = wanted;
      this.resized?.();
    }
  }

  take(head, bytes) {
    this.tiles.get(head.camera)?.take(head, bytes, this.now);
  }

  blank(head) {
    this.tiles.get(head.camera)?.blank(head);
  }

  /** Says on each live picture how old it is. */
  ages() {
    for (const tile of this.tiles.values()) tile.old(this.now());
  }

  /** Says on each picture of which moment it is, where it isn't live. */
  at(words) {
    document.body.classList.toggle("past", Boolean(words));
    for (const tile of this.tiles.values()) {
      tile.past.hidden = !words;
      say(tile.past, words || "");
    }
  }
}

