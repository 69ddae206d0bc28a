// What the pictures show: live, a moment, or an event that is played; of all cameras, of an event's, or of one that is large.
import { ask } from "/static/link.js";
import { byId, clock, icon, length, say, zone } from "/static/words.js";

const SECOND = 1e6;
// Beside buttons, which have words of their own, a moment that is near is told in tenths of a second.
const NEAR = 60;

export class View {
  constructor(link, stage, large, timeline, fault) {
    Object.assign(this, { link, stage, large, timeline, fault });
    this.camera = null;
    this.event = null;
    this.moment = null;
    this.scrubbed = null;
    this.speed = 0;
    this.stretch = {};
    this.steps = 0;
    stage.resized = large.resized = () => this.look();
    for (const [id, drawing, work] of [
      ["second-back", "secondBack", () => this.second(-1)], ["frame-back", "frameBack", () => this.step(-1)],
      ["play", "play", () => this.toggle()], ["frame-on", "frameOn", () => this.step(1)],
      ["second-on", "secondOn", () => this.second(1)], ["live", null, () => this.live()],
      ["from-here", null, () => this.bound("from")], ["to-here", null, () => this.bound("to")],
    ]) {
      if (drawing) byId(id).append(icon(drawing));
      byId(id).onclick = work;
    }
    byId("speed").onchange = () => { if (this.speed) this.play(); };
    // A page that nobody sees is sent no pictures.
    document.addEventListener("visibilitychange", () => this.look());
  }

  /** The cameras that are shown. */
  cameras() {
    if (this.camera) return [this.camera];
    return this.event ? this.event.cameras : null;
  }

  /** The moment that is shown; none where the pictures are live. */
  shown() {
    return this.scrubbed ?? this.moment;
  }

  isLive() {
    return this.shown() === null;
  }

  /** Tells the server what is looked at, and shows how that stands. */
  look() {
    const width = this.camera ? this.large.width : this.stage.width;
    const isScrubbed = this.scrubbed !== null;
    this.turn = this.link.look({
      width: Math.min(16384, Math.max(16, Math.round(width || 640))), cameras: document.hidden ? [] : this.cameras(), stretch: this.stretch,
      moment: this.shown() === null ? null : Math.round(this.shown()),
      speed: isScrubbed ? 0 : this.speed, until: this.speed && !isScrubbed && this.until ? Math.round(this.until) : null,
    });
    this.show();
  }

  /** Shows of which moment the pictures are. */
  show() {
    const moment = this.shown(), isStep = this.moment !== null || Boolean(this.camera);
    byId("step").hidden = !isStep;
    byId("live").setAttribute("aria-pressed", String(this.moment === null));
    const isPlaying = this.speed > 0;
    if (this.isPlaying !== isPlaying) {
      this.isPlaying = isPlaying;
      byId("play").replaceChildren(icon(isPlaying ? "pause" : "play"));
      byId("play").setAttribute("aria-label", isPlaying ? "Stop" : "Play");
    }
    const words = moment === null ? "" : this.agoWords(moment);
    this.stage.at(words);
    this.large.at(moment, words);
    this.timeline.cursor(this.moment);
    this.levels?.show();
    say(byId("step-title"), this.moment === null ? "Live" : `${clock(this.moment, 3)} ${zone(this.moment)}`);
    this.timeline.name(moment === null ? "live" : `${clock(moment, 3)}, ${words}`);
    this.told?.();
  }

  /** How long ago a moment is. */
  agoWords(moment) {
    const seconds = Math.max(0, (this.timeline.now() - moment) / SECOND);
    return `${seconds < NEAR ? `${seconds.toFixed(1)} s` : length(seconds)} ago`;
  }

  // ---------------------------------------------------------------------------------------------- moments

  /** The pointer is over a moment, or over none any more. */
  scrub(time) {
    if (time === this.scrubbed) return;
    this.scrubbed = time;
    this.look();
  }

  /** Stays at a moment. */
  pin(time) {
    this.moment = Math.min(time, this.timeline.now());
    this.speed = 0;
    this.scrubbed = null;
    this.look();
  }

  /** Live again. An event's cameras give way to all. */
  live() {
    this.moment = null;
    this.scrubbed = null;
    this.speed = 0;
    this.close();
    this.timeline.back();
    this.look();
  }

  /** No event is played any more. */
  close() {
    this.event = null;
    this.until = null;
    this.stage.limit(null);
  }

  second(by) {
    this.pin((this.moment ?? this.timeline.now()) + by * SECOND);
  }

  /** Goes some frames on; keys that come while that is asked for are one step together. */
  async step(by, told) {
    this.steps += by;
    this.speed = 0;
    if (this.isAsking) return;
    this.isAsking = true;
    try {
      while (this.steps) {
        const steps = Math.max(-1000, Math.min(1000, this.steps));
        this.steps = 0;
        const found = await ask("/api/step", { cameras: this.cameras(), moment: this.moment === null ? null : Math.round(this.moment), by: steps });
        this.pin(found.moment);
        told?.(found.moment);
      }
    } catch (fault) {
      this.steps = 0;
      this.fault(fault.message);
    }
    this.isAsking = false;
  }

  /** The first moment, or the last one. */
  edge(isEnd) {
    this.pin(isEnd ? this.event?.to_us ?? this.timeline.now() : this.event?.from_us ?? this.timeline.oldest());
  }

  /** Plays, or stops. */
  toggle() {
    if (this.speed) {
      this.speed = 0;
      this.look();
    } else {
      this.play();
    }
  }

  play() {
    const now = this.timeline.now();
    if (this.moment === null) this.moment = now - 10 * SECOND;
    this.until = this.event && this.moment < this.event.to_us ? this.event.to_us : now;
    if (this.event && this.moment >= this.event.to_us - 1000) [this.moment, this.until] = [this.event.from_us, this.event.to_us];
    this.scrubbed = null;
    this.speed = Number(byId("speed").value);
    this.look();
  }

  /** Plays all cameras of an event side by side, in step. */
  playEvent(event) {
    this.camera = null;
    this.large.close();
    this.event = event;
    this.moment = event.from_us;
    this.stage.limit(event.cameras);
    this.timeline.leaveOff();
    this.timeline.reveal(event.from_us, event.to_us);
    this.play();
  }

  /** The server says which moment is played. */
  playing(head) {
    if (head.turn !== this.turn || this.scrubbed !== null) return;
    this.moment = head.moment;
    if (head.over) this.speed = 0;
    this.show();
  }

  bound(which) {
    this.timeline.bound(which, this.moment ?? this.timeline.now());
  }

  // ---------------------------------------------------------------------------------------------- a camera large

  /** Shows a camera large, or all again. */
  open(name) {
    this.camera = name;
    if (name) this.large.open(name, this.stage.tiles.get(name)?.camera);
    else this.large.close();
    this.look();
  }

  /** Stretches a camera's pictures: `auto`, two points, or not. */
  setStretch(name, points) {
    this.setStretches([name], points);
  }

  /** Stretches the pictures of several cameras alike. */
  setStretches(names, points) {
    this.stretch = { ...this.stretch };
    for (const name of names) {
      if (points) this.stretch[name] = points;
      else delete this.stretch[name];
    }
    this.look();
  }
}
