// A camera that is set from here: what its program says that it takes, each word beside its value, for who may; and how sharp the newest picture is.
import { ask } from "/static/link.js";
import { may } from "/static/rights.js";
import { byId, make, mark, say } from "/static/words.js";

const CALLED = { EXPOSURE: "Exposure, \u00b5s", GAIN: "Gain", REGION: "Region", TRIGGER: "Trigger" };
const EVERY = 3000;

/** A word of a camera as people say it. */
const called = (word) => CALLED[word] || word.replace("CONTROL_", "").replaceAll("_", " ");

/** A value, of which few digits are looked at. */
const shown = (value) => (typeof value === "number" ? String(Math.round(value * 1000) / 1000) : value);

export class Tune {
  /** `told` shows what became of a change. */
  constructor(told) {
    this.told = told;
    this.name = null;
    this.takes = "";
    this.list = byId("tune");
    this.best = 0;
    byId("sharp-anew").onclick = () => this.anew();
    setInterval(() => this.ask(), EVERY);
  }

  /** Another camera, or none, is large. */
  open(name) {
    this.name = name;
    this.takes = "";
    byId("tune-title").hidden = this.list.hidden = true;
    this.anew();
    if (name) this.ask();
  }

  /** Asks what the camera takes. Of another station's nothing can be set here. */
  async ask() {
    const name = this.name;
    if (!name || !may("set") || name.includes(":")) return;
    const found = await ask(`/api/cameras/${encodeURIComponent(name)}/settings`).catch(() => null);
    if (!found || name !== this.name) return;
    byId("tune-title").hidden = this.list.hidden = !found.takes.length;
    const words = found.takes.map((take) => take.word).join();
    if (words !== this.takes) {
      this.takes = words;
      this.list.replaceChildren(...found.takes.flatMap((take) => [make("dt", {}, called(take.word)), make("dd", {}, this.field(take))]));
    }
    for (const take of found.takes) this.fill(take);
  }

  /** The field of a word: a choice of some, a switch, or a value within bounds. */
  field(take) {
    const element = take.choices
      ? make("select", {}, ...take.choices.map((choice, place) => make("option", { value: choice }, take.names?.[place] || choice)))
      : make("input", { autocomplete: "off", inputMode: take.sensor ? "text" : "decimal" });
    element.dataset.word = take.word;
    mark(element, "aria-label", called(take.word));
    if (take.least !== undefined) element.title = `${shown(take.least)} to ${shown(take.most)}`;
    if (take.sensor) element.title = `Its size stays: another one needs another store. The sensor has ${take.sensor.join("\u00d7")}.`;
    element.onchange = () => this.set(element);
    return element;
  }

  /** Shows what a word has now, unless somebody is at it. */
  fill(take) {
    const element = this.list.querySelector(`[data-word="${CSS.escape(take.word)}"]`), now = shown(take.now);
    element.disabled = Boolean(take.held);
    if (element !== document.activeElement && !element.dataset.asked) element.value = now;
    element.dataset.now = now;
  }

  /** Sets a word. What the camera doesn't take goes back to what it has. */
  async set(element) {
    const { word, now } = element.dataset, value = element.value.trim();
    if (value === now) return;
    element.dataset.asked = "1";
    this.told("Asked.", "unknown");
    try {
      this.told((await ask("/api/camera", { camera: this.name, set: { [word]: value } })).text, "good");
      this.anew();
    } catch (fault) {
      element.value = now;
      this.told(fault.message, "bad");
    }
    delete element.dataset.asked;
    this.ask();
  }

  // ---------------------------------------------------------------------------------------------- focus

  /** Forgets how sharp the sharpest picture was. */
  anew() {
    this.best = 0;
    this.light(null);
  }

  /** How sharp a picture is, beside the sharpest since the camera is large. */
  light(found) {
    const is = found?.sharpness ?? null, box = byId("sharp");
    box.hidden = is === null;
    if (is === null) return;
    this.best = Math.max(this.best, is);
    const part = this.best ? is / this.best : 0;
    byId("sharp-bar").value = part;
    say(byId("sharp-words"), `Sharpness ${(is * 100).toFixed(1)}, ${Math.round(part * 100)} % of the best`);
  }
}
