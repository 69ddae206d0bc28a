// Which events are shown: by text, cameras, tag, cause, time, and whether frames are lacking.
import { byId, clock, make, mark, say } from "/static/words.js";

const HOUR = 3600e6;
const AGES = [["", "Any time"], ["1", "The last hour"], ["24", "The last day"], ["168", "The last week"], ["span", "From .. to"]];
const KINDS = { press: "Pressed", http: "By HTTP", mqtt: "By MQTT", trigger: "By a trigger" };

/** Why an event was kept, and by whom; nothing where that isn't known. */
export const causeWords = ({ cause }) => (cause ? `${KINDS[cause.kind] || "By an order"}${cause.who ? `: ${cause.who}` : ""}` : "");

/** What was changed of a camera, and by whom. */
export const changeWords = ({ camera, text, who }) => `${camera}: ${text}${who ? ` (${who})` : ""}`;

/** The moment of an event's cause, or else of its first frame, in microseconds. */
export const causeAt = (event) => event.cause?.at_us ?? event.from_us;

/** Whether an event lost frames, as far as that is known, or has less than was asked for. */
export const hasLost = (event) => event.lost > 0 || event.lacks.length > 0;

/** All in which a text is looked for, in small letters. */
const textOf = (event) => [event.note, ...event.cameras, causeWords(event), event.tag || "", event.number ?? "", clock(event.from_us)].join(" ").toLowerCase();

export class Search {
  /** `changed` is called where other events are wanted. */
  constructor(changed) {
    this.changed = changed;
    byId("age").replaceChildren(...AGES.map(([value, text]) => make("option", { value }, text)));
    for (const id of ["search", "filter", "tag", "cause", "age", "since", "until", "lost"]) byId(id).oninput = () => this.chosen();
    byId("search").onkeydown = (event) => {
      if (event.key !== "Escape" || !byId("search").value) return;
      byId("search").value = "";
      this.chosen();
      event.stopPropagation();
    };
    byId("sift").onclick = () => this.unfold(byId("sieve").hidden);
    byId("clear").onclick = () => this.clear();
    this.unfold(false);
    this.chosen();
  }

  /** Shows the fields beside the text, or hides them. */
  unfold(is) {
    byId("sieve").hidden = !is;
    mark(byId("sift"), "aria-expanded", String(is));
  }

  /** The choices that the cameras and the events give. */
  choices(cameras, events) {
    this.fill("filter", "All cameras", cameras, (name) => name);
    this.fill("tag", "Any tag", [...new Set(events.map((event) => event.tag).filter(Boolean))].sort((one, other) => one - other), (tag) => `Tag ${tag}`);
    this.fill("cause", "Any cause", [...new Set(events.map((event) => event.cause?.kind).filter(Boolean))].sort(), (kind) => KINDS[kind] || kind);
    byId("filter").hidden = cameras.length < 2;
  }

  /** The options of a field; what is chosen stays, also where no event has it any more. */
  fill(id, all, values, words) {
    const field = byId(id), chosen = field.value, given = values.map(String);
    const wanted = chosen && !given.includes(chosen) ? [...given, chosen] : given, key = wanted.join();
    if (field.given === key) return;
    field.given = key;
    field.replaceChildren(make("option", { value: "" }, all), ...wanted.map((value) => make("option", { value }, words(value))));
    field.value = chosen;
  }

  /** What is asked for. */
  chosen() {
    const value = (id) => byId(id).value, moment = (id) => (value(id) ? new Date(value(id)).getTime() * 1000 : null), isSpan = value("age") === "span";
    for (const id of ["since", "until"]) byId(id).parentElement.hidden = !isSpan;
    this.words = value("search").toLowerCase().split(/\s+/).filter(Boolean);
    this.wish = { camera: value("filter"), tag: value("tag"), cause: value("cause"), isLost: byId("lost").checked,
      hours: isSpan ? 0 : Number(value("age")), since: isSpan ? moment("since") : null, until: isSpan ? moment("until") : null };
    const more = Object.values(this.wish).filter(Boolean).length;
    this.isAll = !this.words.length && !more;
    say(byId("sift"), more ? `Filter: ${more}` : "Filter");
    byId("clear").hidden = this.isAll;
    this.changed?.();
  }

  /** All events again. */
  clear() {
    for (const id of ["search", "filter", "tag", "cause", "age", "since", "until"]) byId(id).value = "";
    byId("lost").checked = false;
    this.chosen();
    byId("search").focus();
  }

  /** Whether an event is one of those that are asked for, at a time of now. */
  has(event, now) {
    const { camera, tag, cause, isLost, hours, since, until } = this.wish;
    if (camera && !event.cameras.includes(camera)) return false;
    if (tag && String(event.tag) !== tag) return false;
    if (cause && event.cause?.kind !== cause) return false;
    if (isLost && !hasLost(event)) return false;
    if (hours && event.to_us < now - hours * HOUR) return false;
    if ((since && event.to_us < since) || (until && event.from_us > until)) return false;
    const text = this.words.length ? textOf(event) : "";
    return this.words.every((word) => text.includes(word));
  }

  /** Says how many of all are shown. */
  tell(shown, all) {
    say(byId("found"), this.isAll ? "newest first" : `${shown} of ${all}`);
  }
}
