// The black and the white level of all pictures that are shown, as of an event that is played: one window for all of the same depth, or of one camera.
import { byId, make, mark } from "/static/words.js";

export class Levels {
  /** `view` has what is shown, and how each camera is stretched. */
  constructor(view) {
    this.view = view;
    byId("all-black").onchange = byId("all-white").onchange = () => this.typed();
    byId("all-auto").onclick = () => this.auto();
    byId("all-stored").onclick = () => this.set(null);
    byId("levels-of").onchange = () => this.show();
  }

  /** The cameras that are shown, each with its depth in bits. */
  shown() {
    return this.view.stage.shown().map((tile) => ({ name: tile.name, bits: tile.camera?.bits || 8 }));
  }

  /** The cameras whose window this is: one, or all of the deepest. */
  cameras() {
    const shown = this.shown(), most = Math.max(8, ...shown.map(({ bits }) => bits)), chosen = byId("levels-of").value;
    return shown.filter(({ name, bits }) => (chosen ? name === chosen : bits === most));
  }

  /** Shows whose window it is, and which. */
  show() {
    const isHidden = Boolean(this.view.camera) || this.view.moment === null;
    byId("levels").hidden = isHidden;
    if (isHidden) return;
    const shown = this.shown(), most = Math.max(8, ...shown.map(({ bits }) => bits)), isOneDepth = shown.every(({ bits }) => bits === most);
    const all = isOneDepth ? "all" : `all of ${most} bits`, key = [all, ...shown.map(({ name }) => name)].join(), choice = byId("levels-of");
    if (this.key !== key) {
      const chosen = choice.value;
      this.key = key;
      choice.replaceChildren(make("option", { value: "" }, all), ...(shown.length > 1 ? shown.map(({ name }) => make("option", { value: name }, name)) : []));
      choice.value = shown.some(({ name }) => name === chosen) ? chosen : "";
    }
    const [first] = this.cameras(), wish = first && this.view.stretch[first.name];
    mark(byId("all-auto"), "aria-pressed", String(wish === "auto"));
    const [black, white] = Array.isArray(wish) ? wish : wish === "auto" ? ["", ""] : [0, 2 ** (first?.bits || 8) - 1];
    for (const [id, value] of [["all-black", black], ["all-white", white]]) if (byId(id) !== document.activeElement) byId(id).value = value;
  }

  /** Sets the window. */
  set(points) {
    this.view.setStretches(this.cameras().map(({ name }) => name), points);
    this.show();
  }

  auto() {
    const cameras = this.cameras();
    if (cameras.length) this.set(this.view.stretch[cameras[0].name] === "auto" ? null : "auto");
  }

  typed() {
    const black = Number.parseInt(byId("all-black").value, 10), white = Number.parseInt(byId("all-white").value, 10), [first] = this.cameras();
    if (first && black >= 0 && white > black && white < 2 ** first.bits) this.set([black, white]);
  }
}
