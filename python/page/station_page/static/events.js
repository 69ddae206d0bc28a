// Events: one press is one event of all its cameras. Play, note, download, release.
import { ask } from "/static/link.js";
import { may } from "/static/rights.js";
import { Search, causeWords, changeWords } from "/static/search.js";
import { byId, clock, count, icon, length, make, mark, say, size, zone } from "/static/words.js";

const THUMBS = 5;
const FRESH = 20000;
const KINDS = [
  ["mp4,csv", "Films and times", "MP4, CSV"], ["y4m,csv", "Raw frames and times", "Y4M, CSV"],
  ["png,csv", "Pictures and times", "PNG, CSV"], ["mp4,y4m,png,csv", "All of these", "MP4, Y4M, PNG, CSV"],
];

const keyOf = (clip) => `${clip.camera}.${clip.id}.${clip.first}`;
const named = (clips) => clips.map(({ camera, id, first }) => ({ camera, id, first }));

/** By what an event is known: the station's number. Where it isn't known, by its clips; these may grow while the event goes on. */
export const rowOf = (event) => event.number === null ? event.key : String(event.number);

/** An event's time and length in words. */
export const called = (event) => `the event of ${clock(event.from_us)}, ${length(event.seconds)}`;

export class Events {
  /** `told` has play(event), answered(text, level), and now(), the time by the server's clock. */
  constructor(told) {
    this.told = told;
    this.events = [];
    this.rows = new Map();
    this.fresh = new Map();
    this.progress = {};
    this.playing = null;
    this.isFirst = true;
    this.cameras = [];
    this.search = new Search(() => this.search && this.draw());
    byId("newer").onclick = () => {
      byId("events").scrollTop = 0;
      byId("newer").hidden = true;
    };
    byId("events").onscroll = () => { if (byId("events").scrollTop < 5) byId("newer").hidden = true; };
  }

  /** The cameras that there are. */
  names(names) {
    this.cameras = names;
    this.search.choices(names, this.events);
  }

  /** Shows the events that there are. */
  show(events) {
    this.events = events;
    this.search.choices(this.cameras, events);
    this.draw();
  }

  /** The event of this key is played; or none is. */
  plays(key) {
    if (key === this.playing) return;
    this.playing = key;
    this.draw();
  }

  /** Clips that were kept just now: their event stands out. */
  kept(clips) {
    for (const clip of clips) this.fresh.set(keyOf(clip), performance.now());
    this.draw();
    setTimeout(() => this.draw(), FRESH + 100);
  }

  isFresh(event) {
    return event.clips.some((clip) => performance.now() - (this.fresh.get(keyOf(clip)) ?? -FRESH) < FRESH);
  }

  /** Draws the list. Rows that stay are left as they are, with what is being typed there; and nothing moves under the pointer. */
  draw() {
    const list = byId("events"), now = this.told.now(), wanted = this.events.filter((event) => this.search.has(event, now));
    const keys = new Set(wanted.map(rowOf)), old = list.scrollHeight;
    for (const [key, row] of this.rows) {
      if (keys.has(key)) continue;
      row.element.remove();
      this.rows.delete(key);
    }
    byId("no-events").hidden = this.events.length > 0;
    byId("none-found").hidden = wanted.length > 0 || !this.events.length;
    this.search.tell(wanted.length, this.events.length);
    list.hidden = !wanted.length;
    let newer = 0;
    wanted.forEach((event, place) => {
      if (!this.rows.has(rowOf(event))) {
        this.rows.set(rowOf(event), new Row(event, this));
        newer += place < 3;
      }
      const row = this.rows.get(rowOf(event));
      row.show(event);
      if (list.children[place] !== row.element) list.insertBefore(row.element, list.children[place] || null);
    });
    if (newer && !this.isFirst && (list.scrollTop > 5 || list.matches(":hover"))) {
      list.scrollTop += list.scrollHeight - old;
      byId("newer").hidden = list.scrollTop < 5;
      say(byId("newer"), `${newer} new`);
    }
    this.isFirst = false;
  }

  /** How far downloads are. */
  moved(progress) {
    this.progress = progress;
    for (const row of this.rows.values()) row.moved(progress);
    if (this.fetching) this.fetching.moved(progress);
  }

  /** The event within which a moment of a camera is. */
  at(camera, moment) {
    return this.events.find((event) => event.clips.some((clip) => clip.camera === camera && moment >= clip.from_us - 1000 && moment <= clip.to_us + 1000));
  }

  /** Releases an event, once that was asked. */
  release(event) {
    const sure = byId("sure");
    say(byId("sure-text"), `T${called(event).slice(1)} of ${camerasOf(event)} is ${size(event.bytes)}${event.note ? `, with the note \u201c${event.note}\u201d` : ""}. `
      + "Once it is released, its frames are overwritten, and nobody gets them back.");
    sure.returnValue = "no";
    sure.onclose = async () => {
      if (sure.returnValue !== "yes") return;
      try {
        const found = await ask("/api/event/release", { clips: named(event.clips) });
        this.told.answered(found.text, "good");
      } catch (fault) {
        this.told.answered(fault.message, "bad");
      }
    };
    sure.showModal();
  }

  async note(event, text, input) {
    try {
      await ask("/api/event/note", { clips: named(event.clips), note: text });
      input.note = text;
    } catch (fault) {
      this.told.answered(fault.message, "bad");
    }
  }

  fetch(event) {
    this.fetching = new Fetching(event, this);
  }
}

/** An event's cameras in words. */
export function camerasOf(event) {
  return event.cameras.length === 1 ? event.cameras[0] : `${event.cameras.length} cameras`;
}

class Row {
  constructor(event, events) {
    this.events = events;
    this.element = make("li", { className: "event" });
    this.time = make("time", { dateTime: new Date(event.from_us / 1000).toISOString() });
    this.time.title = `${clock(event.from_us, 3)} to ${clock(event.to_us, 3)} ${zone(event.to_us)}`;
    this.length = make("span", { className: "len num" });
    this.size = make("span", { className: "size num" });
    this.note = make("input", { value: event.note, maxLength: 400, autocomplete: "off", placeholder: "add a note" });
    this.note.note = event.note;
    this.note.readOnly = !may("keep");
    this.note.onkeydown = (key) => {
      if (key.key === "Enter") this.note.blur();
      if (key.key === "Escape") {
        this.note.value = this.note.note;
        this.note.blur();
        key.stopPropagation();
      }
    };
    this.note.onchange = () => events.note(this.event, this.note.value, this.note);
    this.bar = make("progress", { max: 1, value: 0, hidden: true });
    this.play = button("play", "Play", () => events.told.play(this.event));
    this.get = button("down", "Download", () => events.fetch(this.event));
    this.let = button(null, "Release", () => events.release(this.event));
    this.let.classList.add("release");
    const top = make("div", { className: "top" }, this.time, this.length, make("span", { className: "grow" }), this.size);
    const acts = make("div", { className: "acts" }, this.play, this.get, make("span", { className: "grow" }), this.let);
    this.lack = make("p", { className: "lack warn", hidden: true });
    this.cause = make("p", { className: "cause", hidden: true });
    this.thumbs = thumbsOf(event);
    this.clips = event.key;
    this.element.append(top, this.cause, this.thumbs, this.lack, this.note, this.bar, acts);
    const title = called(event);
    mark(this.note, "aria-label", `Note of ${title}`);
    for (const [control, word] of [[this.play, "Play"], [this.get, "Download"], [this.let, "Release"]]) control.setAttribute("aria-label", `${word} ${title}`);
    this.bar.setAttribute("aria-label", `Download of ${title}`);
  }

  show(event) {
    this.event = event;
    this.element.dataset.key = event.key;
    say(this.time, clock(event.from_us));
    say(this.length, `${length(event.seconds)} \u00b7 ${camerasOf(event)}${event.tag ? ` \u00b7 tag ${event.tag}` : ""}${event.archived ? " \u00b7 archived" : ""}`);
    say(this.size, size(event.bytes));
    say(this.cause, [causeWords(event), ...(event.changes || []).map(changeWords)].filter(Boolean).join(". "));
    this.cause.hidden = !this.cause.textContent;
    this.cause.className = `cause by-${event.cause?.kind || ""}`;
    say(this.lack, lackOf(event));
    this.lack.hidden = !this.lack.textContent;
    if (this.clips !== event.key) {
      // Clips that have grown have other numbers.
      const thumbs = thumbsOf(event);
      this.thumbs.replaceWith(thumbs);
      Object.assign(this, { thumbs, clips: event.key });
    }
    if (this.note !== document.activeElement && this.note.note !== event.note) this.note.value = this.note.note = event.note;
    this.element.classList.toggle("fresh", this.events.isFresh(event));
    this.element.classList.toggle("playing", this.events.playing === rowOf(event));
  }

  /** Shows how far this event's download is. */
  moved(progress) {
    const found = progress[this.as];
    this.bar.hidden = !found || found.over;
    if (found) this.bar.value = found.done / found.all;
  }
}

/** A button with an icon and a word. */
function button(drawing, text, work) {
  const element = make("button", { type: "button", className: "quiet" }, ...(drawing ? [icon(drawing), " "] : []), text);
  element.onclick = work;
  return element;
}

/** That an event goes on, and of which cameras it has less than was asked for. */
function lackOf(event) {
  const on = event.until_us ? `Goes on until ${clock(event.until_us)}. ` : "";
  const named = event.lacks.slice(0, 3).map(({ camera, held_us: held, asked_us: asked }) =>
    held === null ? `${camera} isn't whole` : `${camera} ${length(held / 1e6)} of ${length(asked / 1e6)}`);
  const rest = event.lacks.length - named.length;
  const lost = event.lost ? `${count(event.lost, "frame")} lost. ` : "";
  return on + lost + (named.length ? `Less than was asked for: ${named.join(", ")}${rest ? `, and ${rest} more` : ""}.` : "");
}

/** A picture from the middle of each clip, the first few. */
function thumbsOf(event) {
  const firsts = event.cameras.map((name) => event.clips.find((clip) => clip.camera === name));
  const shown = firsts.length > THUMBS + 1 ? firsts.slice(0, THUMBS) : firsts;
  const pictures = shown.map((clip) => make("img", {
    src: `/api/clips/${encodeURIComponent(clip.camera)}/${clip.id}.jpg?first=${clip.first}`, alt: clip.camera, title: clip.camera, loading: "lazy",
  }));
  if (shown.length < firsts.length) pictures.push(make("span", { className: "rest" }, `+${firsts.length - shown.length}`));
  return make("div", { className: firsts.length < 3 ? "thumbs single" : "thumbs" }, ...pictures);
}

/** The dialog in which an event is downloaded. */
class Fetching {
  constructor(event, events) {
    this.event = event;
    say(byId("fetch-title"), `Download ${called(event)}`);
    say(byId("fetch-text"), `${camerasOf(event)}, ${size(event.bytes)} of raw frames${event.note ? `, \u201c${event.note}\u201d` : ""}. All cameras in one zip:`);
    const whole = KINDS.map(([what, text, kinds]) => {
      const link = make("a", { href: "#", download: "" }, icon("down"), text, make("span", {}, kinds));
      link.onclick = () => this.begin(link, what, events);
      link.href = this.address(what, "");
      return link;
    });
    byId("fetch-whole").replaceChildren(...whole);
    byId("fetch-single").replaceChildren(...event.clips.map((clip) => singleOf(clip)));
    byId("fetch-progress").hidden = true;
    byId("fetch").onclose = () => { events.fetching = null; };
    byId("fetch").showModal();
  }

  address(what, as) {
    return `/api/event.zip?clips=${this.event.clips.map(keyOf).join("~")}&what=${what}${as ? `&as=${as}` : ""}`;
  }

  /** The browser saves the zip; how far it is, the server says, by a name that only this page knows. */
  begin(link, what, events) {
    this.as = [...crypto.getRandomValues(new Uint8Array(12))].map((byte) => byte.toString(16).padStart(2, "0")).join("");
    link.href = this.address(what, this.as);
    const row = events.rows.get(rowOf(this.event));
    if (row) row.as = this.as;
    byId("fetch-progress").hidden = false;
    byId("fetch-bar").value = 0;
    say(byId("fetch-words"), "Begins.");
  }

  moved(progress) {
    const found = progress[this.as];
    if (!found) return;
    byId("fetch-bar").value = found.done / found.all;
    const isWhole = found.over && found.done >= found.all;
    say(byId("fetch-words"), isWhole ? "All is sent." : `${Math.floor(found.done / found.all * 100)} %: ${found.text}`);
  }
}

/** A clip's own files. */
function singleOf(clip) {
  const path = `/api/clips/${encodeURIComponent(clip.camera)}/${clip.id}`;
  const links = [["mp4", "MP4", "MP4"], ["y4m", "Y4M", "YUV4MPEG2"], ["zip", "PNG", "PNGs in a zip"], ["csv", "CSV", "Times as CSV"]].map(([kind, text, name]) =>
    make("a", { href: `${path}.${kind}?first=${clip.first}`, download: "", title: name, ariaLabel: `${name}: clip ${clip.id} of ${clip.camera}` }, text));
  return make("li", {}, make("b", {}, clip.camera), make("span", { className: "muted num" }, count(clip.frames, "frame")), ...links);
}
