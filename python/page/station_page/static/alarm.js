// An alarm: what went wrong rings until somebody has taken notice of it. Its bar stays, also where the cause is over and over a reload, until Seen is pressed.
import { byId, clock, count, mark, say } from "/static/words.js";

const KEPT = "alarm";
const EVERY = 3000;
const TONES = [[880, 0], [660, 0.22]];
const TONE_SECONDS = 0.18;
const LOUD = 0.12;
const MOST = 20;

/** By what a warning is known: its number begins anew with each start of the server. */
const keyOf = ({ id, kind, camera }) => `${id} ${kind} ${camera}`;

/** What the browser remembers; nothing where it may not. */
function kept() {
  try {
    const found = JSON.parse(localStorage.getItem(KEPT) || "[]");
    return Array.isArray(found) ? found.filter((it) => it && typeof it.text === "string" && typeof it.key === "string" && Number.isFinite(it.time)) : [];
  } catch {
    return [];
  }
}

export class Alarm {
  /** `seen` takes the numbers of warnings that were seen. */
  constructor(seen) {
    this.seen = seen;
    this.rows = kept();
    // Those of which somebody took notice here, until the server knows it.
    this.noticed = new Set();
    this.sound = null;
    this.isLoud = localStorage.getItem("sound") !== "off";
    byId("alarm-seen").onclick = () => this.taken();
    byId("sound").onclick = () => this.loud(!this.isLoud);
    // A browser lets a page sound once somebody has done something there.
    for (const kind of ["pointerdown", "keydown"]) document.addEventListener(kind, () => this.wake(), { passive: true });
    setInterval(() => this.ring(), EVERY);
    this.show();
  }

  /** Sound may begin, after the first gesture. */
  wake() {
    this.sound ??= new AudioContext();
    if (this.sound.state === "suspended") this.sound.resume().then(() => this.show());
    this.show();
  }

  loud(is) {
    this.isLoud = is;
    localStorage.setItem("sound", is ? "on" : "off");
    this.show();
  }

  /** The warnings that nobody has seen: new ones ring; those that are there no more are over, unless somebody elsewhere has seen them. */
  take(alerts, seen = []) {
    const found = new Map(alerts.map((alert) => [keyOf(alert), alert]));
    this.noticed = new Set([...this.noticed].filter((key) => found.has(key)));
    this.rows = this.rows.filter((row) => found.has(row.key) || !seen.includes(row.id));
    for (const row of this.rows) {
      const alert = found.get(row.key);
      row.isOver = !alert;
      if (alert) [row.text, row.time] = [alert.text, alert.time];
    }
    const known = new Set([...this.rows.map(({ key }) => key), ...this.noticed]), news = alerts.filter((alert) => !known.has(keyOf(alert)));
    this.rows = [...this.rows, ...news.map((alert) => ({ key: keyOf(alert), id: alert.id, text: alert.text, time: alert.time, isOver: false }))].slice(-MOST);
    this.keep();
    if (news.length) this.ring();
    this.show();
  }

  /** Somebody has taken notice. */
  taken() {
    const there = this.rows.filter(({ isOver }) => !isOver), ids = there.map(({ id }) => id);
    for (const { key } of there) this.noticed.add(key);
    this.rows = [];
    this.keep();
    this.show();
    if (ids.length) this.seen(ids);
  }

  keep() {
    try {
      localStorage.setItem(KEPT, JSON.stringify(this.rows));
    } catch {
      // The browser remembers nothing: the bar is there until the page is left.
    }
  }

  /** Two tones, where there is something to take notice of. */
  ring() {
    if (!this.rows.length || !this.isLoud || this.sound?.state !== "running") return;
    this.rung = (this.rung || 0) + 1;
    byId("alarm").dataset.rung = this.rung;
    for (const [pitch, after] of TONES) {
      const tone = this.sound.createOscillator(), gain = this.sound.createGain(), at = this.sound.currentTime + after;
      tone.frequency.value = pitch;
      gain.gain.setValueAtTime(LOUD, at);
      gain.gain.exponentialRampToValueAtTime(0.001, at + TONE_SECONDS);
      tone.connect(gain).connect(this.sound.destination);
      tone.start(at);
      tone.stop(at + TONE_SECONDS);
    }
  }

  /** The bar: the newest, how many others, and whether it is heard. */
  show() {
    const newest = this.rows.at(-1), more = this.rows.length - 1, bar = byId("alarm");
    bar.hidden = !newest;
    if (newest) {
      const over = newest.isOver ? " It is over." : "", rest = more ? ` And ${count(more, "other")}.` : "";
      say(byId("alarm-text"), `${clock(newest.time * 1e6)} ${newest.text}${over}${rest}`);
    }
    say(byId("sound-text"), !this.isLoud ? "Sound is off" : this.sound?.state === "running" ? "Sound is on" : "Sound waits for a click or a key");
    mark(byId("sound"), "aria-pressed", String(this.isLoud));
  }

  /** What stands before the page's title. */
  title() {
    return this.rows.length ? `\u25b2 ${this.rows.length} ` : "";
  }
}
