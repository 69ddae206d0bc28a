// What is read aloud of how all stands: once where something else is wrong than before, and not each second how long by now.
import { byId, say } from "/static/words.js";

let told = "";

/** Says how all stands, in the words of the page's head. */
export function speak(standing, isLost) {
  const key = JSON.stringify(isLost || !standing ? [isLost] : [standing.station[0], standing.cameras.filter((it) => it.level !== "good").map((it) => [it.name, it.kind])]);
  if (key === told || !(standing || isLost)) return;
  told = key;
  say(byId("spoken"), `${byId("pill").textContent}. ${byId("banner-text").textContent}`);
}
