// What the person at this page may do. A control that one may not use isn't there, and keys don't do it either.
import { byId } from "/static/words.js";

const ALL = ["see", "keep", "release", "set"];
let rights = ALL;

/** Whether the person may `keep`, `release`, or `set` cameras. Notes and warnings that are seen are of those who may keep. */
export const may = (what) => rights.includes(what);

/** Asks the server who is at the page, and shows what that person may do. A server that doesn't say it refuses by itself. */
export async function askRights() {
  const found = await fetch("/api/me").then((answer) => (answer.ok ? answer.json() : null)).catch(() => null);
  rights = Array.isArray(found?.rights) ? ALL.filter((it) => found.rights.includes(it)) : ALL;
  for (const what of ALL) document.body.classList.toggle(`may-not-${what}`, !may(what));
  for (const input of document.querySelectorAll("#events input")) input.readOnly = !may("keep");
  if (found?.user) byId("leave").querySelector("button").title = `Sign out ${found.user}`;
}
