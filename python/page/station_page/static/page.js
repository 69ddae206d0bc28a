// The laboratory's page as a console: how all stands, the press, warnings and keys. The other scripts have pictures, timeline and events.
import { Events, camerasOf, rowOf } from "/static/events.js";
import { Large } from "/static/large.js";
import { Link, ask } from "/static/link.js";
import { Alarm } from "/static/alarm.js";
import { diskRows, showDisk } from "/static/disk.js";
import { Levels } from "/static/levels.js";
import { Ruler } from "/static/ruler.js";
import { askRights, may } from "/static/rights.js";
import { speak } from "/static/spoken.js";
import { Stage } from "/static/stage.js";
import { Timeline, rangeWords } from "/static/timeline.js";
import { Tune } from "/static/tune.js";
import { View } from "/static/view.js";
import { byId, clock, count, fullWords, icon, length, make, mark, say, zone } from "/static/words.js";

const LOST_AFTER = 2500;
const SECONDS = [5, 10, 15, 20, 30, 45, 60, 90, 120, 180, 300, 600, 900, 1800, 3600];
const MOST_SECONDS = 86400;
const ANSWER_STAYS = 15000;
const DIGITS = 700;
const PHONE = matchMedia("(max-width: 760px)");
const TOUCH = matchMedia("(pointer: coarse)");
const LEVELS = ["good", "unknown", "warn", "bad"];

let standing = null;
let more = {};
let cameraNames = [];
let heard = performance.now();
let isLost = false;
let answeredAt = -Infinity;
let isBegun = false;

const large = new Large(() => link.clock.at());
const stage = new Stage((name) => view.open(name), () => link.clock.at());
const link = new Link((head, body) => hear(head, body));
const events = new Events({ play: (event) => view.playEvent(event), answered, now: () => timeline.now() });
const timeline = new Timeline({ scrub: (time) => view.scrub(time), pin: (time) => view.pin(time), choose: () => name() });
const view = new View(link, stage, large, timeline, (text) => answered(text, "bad"));
const ruler = new Ruler(large, () => { if (view.moment === null) view.pin(timeline.now()); });
const alarm = new Alarm((ids) => sawAll(ids));
view.levels = new Levels(view);
const tune = new Tune(answered);
large.opened = (name) => tune.open(name);
large.lighted = (found) => tune.light(found);
large.wish = (camera) => view.stretch[camera];
large.stretched = (points) => view.setStretch(large.name, points);
view.told = () => {
  events.plays(view.event ? rowOf(view.event) : null);
  lanes();
  within();
  if (view.moment === null || !view.camera) ruler.close();
};

// ------------------------------------------------------------------------------------------------ what the server says

const text = new TextDecoder();

/** A message of the server. */
function hear(head, body) {
  heard = performance.now();
  if (isLost) found();
  if (head.kind === "picture" || head.kind === "none") {
    if (head.turn !== link.turn && head.live !== view.isLive()) return;
    const work = head.kind === "picture" ? "take" : "blank";
    if (view.camera) large[work](head, body);
    else stage[work](head, body);
  } else if (head.kind === "moment") {
    view.playing(head);
  } else if (head.kind === "state") {
    show(JSON.parse(text.decode(body)));
  } else if (head.kind === "more") {
    const found = JSON.parse(text.decode(body));
    more = found.cameras;
    timeline.changed(found.changes || []);
    if (standing) show(standing);
  } else if (head.kind === "events") {
    events.show(JSON.parse(text.decode(body)));
    timeline.caused(events.events);
    within();
  } else if (head.kind === "progress") {
    events.moved(JSON.parse(text.decode(body)));
  }
}

/** Says that the server is lost, once nothing was heard of it for a while. */
function watch() {
  if (link.refused) {
    banner();
    pill();
  }
  if (isLost || performance.now() - heard < LOST_AFTER) return;
  isLost = true;
  document.body.classList.add("lost");
  // From then on nobody knows here what came.
  timeline.known = link.clock.at(heard);
  banner();
  pill();
}

/** The server is there again. */
function found() {
  isLost = false;
  document.body.classList.remove("lost");
  timeline.known = null;
  banner();
  pill();
}

/** Shows how all stands. */
function show(state) {
  standing = state;
  byId("leave").hidden = !state.has_token;
  const names = state.cameras.map((camera) => camera.name);
  if (names.join() !== cameraNames.join()) begin(state.cameras, names);
  // One that was removed goes.
  if (view.camera && !names.includes(view.camera)) view.open(null);
  stage.show(state.cameras);
  lanes();
  const shown = state.cameras.find((camera) => camera.name === view.camera);
  if (shown) large.show(shown, { ...more[shown.name], disk: diskRows(more[shown.name]?.disk, timeline.now()) });
  pill();
  banner();
  alerts();
  room();
  name();
}

/** The lanes of what is shown: of a camera that is large its own. */
function lanes() {
  if (!standing) return;
  const names = view.cameras();
  timeline.show(standing.cameras.filter((camera) => !names || names.includes(camera.name)), serverNow() / 1e6);
}

/** The server's time in microseconds: as it was measured, or until then as it said it last. */
const serverNow = () => link.clock.at() ?? standing.now * 1e6;

/** The cameras' names in both lists. */
function begin(cameras, names) {
  cameraNames = names;
  byId("camera").replaceChildren(make("option", { value: "" }, names.length > 1 ? `All ${names.length}${PHONE.matches ? "" : " cameras"}` : "The camera"), ...names.map((name) => make("option", { value: name }, `${name} alone`)));
  byId("camera").hidden = names.length < 2;
  events.names(names);
  if (cameras.length && !isBegun) {
    if (cameras[0].keep) byId("seconds").value = cameras[0].keep;
    byId("then").value = afterOf("");
  }
  isBegun ||= cameras.length > 0;
}

// ------------------------------------------------------------------------------------------------ how it stands

/** Whether a camera records. */
const records = (camera) => camera.level !== "bad" && Boolean(camera.newest);

/** How many cameras record. */
function pill() {
  const element = byId("pill");
  if (isLost || !standing) {
    element.className = "pill unknown";
    say(element, link.refused ? "Not let in" : isLost ? "Server lost" : "Not connected yet");
    return;
  }
  const all = standing.cameras.length, good = standing.cameras.filter(records).length;
  const level = standing.station[0] === "bad" || !good ? "bad" : good < all ? "warn" : "good";
  element.className = `pill ${level}`;
  const words = level === "bad" ? "Not recording" : "Recording", numbers = `${standing.station[0] === "bad" ? 0 : good} of ${all}`;
  if (element.textContent !== `${words} ${numbers}`) element.replaceChildren(`${words} `, make("b", {}, numbers));
}

/** All that is wrong now, the worst first, each as {level, text, advice}. */
function troubles() {
  if (link.refused) return [{ level: "bad", text: link.refused, advice: "Close pages that nobody looks at, on this computer or another. This one tries again each second." }];
  if (isLost) {
    const at = clock((Date.now() - (performance.now() - heard)) * 1000);
    return [{ level: "bad", text: `This page has lost its server at ${at}. What you see is of that time. Recording may well go on.`,
      advice: "Does loop_page run (systemctl status loop_page), and is the network there? The page tries again each second.", answer: "server" }];
  }
  if (!standing) return [];
  const list = [];
  const [level, text] = standing.station;
  if (level !== "good") list.push({ level, text, advice: level === "bad" ? "Start the station: systemctl start loop_station. Until then nothing is recorded." : "docs/page.md, \u201cBegin\u201d, says how the station's file names its pipes.", answer: "station" });
  for (const camera of standing.cameras) {
    if (camera.level !== "good") {
      list.push({ level: camera.level, camera: camera.name, kind: camera.kind, short: camera.short || camera.level, text: camera.state, advice: more[camera.name]?.advice || "",
        answer: (camera.kind || "").replace(" ", "-") });
    }
  }
  for (const station of standing.stations || []) {
    if (station.level !== "good") list.push({ level: station.level, text: station.text, advice: `docs/several.md says more. Its own page is ${station.url}/`, answer: "others" });
  }
  if (standing.archive?.text) list.push({ level: "warn", text: standing.archive.text, advice: "Events are kept here until they are archived. docs/several.md says how loop_archive is set up.", answer: "archive" });
  if (standing.notes_fault) list.push({ level: "warn", text: standing.notes_fault, advice: "Notes aren't written until then. Clips are kept nevertheless.", answer: "notes" });
  return list.sort((one, other) => LEVELS.indexOf(other.level) - LEVELS.indexOf(one.level));
}

/** The worst thing now in one line; the rest is under the bell. */
function banner() {
  const list = troubles(), element = byId("banner");
  const unseen = (standing?.alerts || []).filter((alert) => !alert.over);
  let level = "good", words = standing ? calm() : "The page connects to its server.", camera = "";
  if (list.length) [level, words, camera] = [list[0].level, list[0].text, alike(list).join(", ")];
  else if (unseen.length) [level, words] = ["warn", `Nothing is wrong now. ${count(unseen.length, "warning")} ${unseen.length === 1 ? "isn't" : "aren't"} seen yet.`];
  else if (!standing) level = "unknown";
  const rest = restOf(list);
  const wanted = `banner ${level}`;
  if (element.className !== wanted) element.className = wanted;
  if (byId("banner-text").textContent !== `${camera}${camera ? ": " : ""}${words}${rest}`) {
    byId("banner-text").replaceChildren(...(camera ? [make("b", {}, camera), ": "] : []), words, rest);
  }
  byId("what").hidden = !list.some((it) => it.advice);
  speak(standing, isLost);
}

/** The cameras of which the worst thing is so. */
const alike = (list) => list.filter((it) => it.camera && it.kind === list[0].kind && it.level === list[0].level).map((it) => it.camera);

/** What else is wrong, shortly: each camera by its name, and how many other things. */
function restOf(list) {
  const said = new Set(list.length ? alike(list) : []);
  const others = list.slice(1).filter((it) => !said.has(it.camera)), more = others.filter((it) => !it.camera).length;
  const named = others.filter((it) => it.camera).map((it) => `${it.camera} (${it.short})`);
  return (named.length ? ` Also ${named.join(", ")}.` : "") + (more ? ` And ${more} more.` : "");
}

/** What is said where nothing is wrong. */
function calm() {
  const news = (standing.news || []).at(-1);
  return news && standing.now - news.time < 60 ? `${clock(news.time * 1e6)} ${news.text}` : "All is well.";
}

/** What to do about each trouble. */
function advise() {
  const rows = troubles().filter((it) => it.advice).flatMap((it) => [
    make("dt", { className: `state ${it.level}` }, `${it.camera ? `${it.camera}: ` : ""}${it.text}`),
    make("dd", {}, it.advice, " ", make("a", { href: `/answers#advice-${it.answer}`, target: "_blank" }, "More"))]);
  byId("advice-list").replaceChildren(...rows);
  byId("advice").showModal();
}

// ------------------------------------------------------------------------------------------------ warnings

const alertRows = new Map();

/** The warnings that nobody has seen, under the bell, the newest first. */
function alerts() {
  const list = standing.alerts;
  alarm.take(list, standing.seen);
  title();
  const bell = byId("bell"), badge = byId("badge");
  mark(bell, "aria-label", list.length ? `Warnings: ${list.length} not seen` : "Warnings: none");
  badge.hidden = !list.length;
  say(badge, String(list.length));
  byId("all-seen").hidden = !list.length;
  say(byId("warnings-title"), list.length ? count(list.length, "warning") : "No warnings");
  const ids = new Set(list.map((alert) => alert.id));
  for (const [id, row] of alertRows) {
    if (ids.has(id)) continue;
    row.remove();
    alertRows.delete(id);
  }
  for (const alert of list) {
    if (!alertRows.has(alert.id)) {
      const seen = make("button", { type: "button", className: "quiet", ariaLabel: `Seen: ${alert.text}` }, "Seen");
      seen.onclick = () => sawAll([alert.id]);
      alertRows.set(alert.id, make("li", { className: "bad" }, make("span"), make("time"), seen));
      byId("alerts").prepend(alertRows.get(alert.id));
    }
    const row = alertRows.get(alert.id);
    row.className = alert.over ? "good over" : "bad";
    say(row.children[0], `${alert.text}${alert.times > 1 ? ` (${alert.times} times)` : ""}${alert.over ? " It is over." : ""}`);
    say(row.children[1], clock(alert.time * 1e6));
  }
  happened();
}

/** The station's own name stands in the title and above the page; before it how much nobody has taken notice of. */
function title() {
  const name = standing?.name || "Laboratory", wanted = alarm.title() + name;
  if (document.title !== wanted) document.title = wanted;
  say(byId("name"), name);
}

/** What happened, and who changed what, the newest first. */
function happened() {
  const changes = (standing.journal || []).map((it) => {
    const front = `${it.kind}${it.address ? `, ${it.address}, ${it.session}` : ""}: `;
    return { time: it.time, bad: it.is_bad, order: it.order ? front + it.order : "", text: front + it.text };
  });
  const told = [...(standing.news || []), ...changes].sort((one, other) => other.time - one.time).slice(0, 30);
  const key = JSON.stringify(told);
  if (key === happened.key) return;
  happened.key = key;
  byId("done-title").hidden = !told.length;
  byId("done").replaceChildren(...told.map((it) => make("li", { className: it.bad ? "bad" : "good" }, folded(it), make("time", {}, clock(it.time * 1e6)))));
}

/** A long text, of which what was done is shown, and what became of it is unfolded. */
function folded({ text, order }) {
  if (text.length < 100 || !order) return make("span", {}, text);
  return make("details", {}, make("summary", {}, order), make("p", {}, text.slice(order.length + 2)));
}

/** Somebody has seen warnings: these, and none that came meanwhile. */
function sawAll(ids) {
  ask("/api/seen", { ids }).catch((fault) => answered(fault.message, "bad"));
}

function ring() {
  const panel = byId("warnings");
  if (panel.open) panel.close();
  else panel.show();
  byId("bell").setAttribute("aria-expanded", String(panel.open));
  if (!panel.open) byId("bell").focus();
}

// ------------------------------------------------------------------------------------------------ room

/** How many more events of so many seconds fit: of the camera that has least room. */
function left(seconds) {
  const rooms = standing.cameras.filter((camera) => more[camera.name]?.slots).map((camera) => {
    const { room_blocks: blocks, slots, clips_left: clips } = more[camera.name];
    return Math.max(0, Math.min(clips, Math.floor(blocks / (Math.ceil(seconds * camera.asked_rate / slots) + 1))));
  });
  return rooms.length ? Math.min(...rooms) : null;
}

/** How much is locked, and for how much there is room. */
function room() {
  const shares = standing.cameras.map((camera) => camera.locked).filter((it) => it !== undefined), most = Math.max(0, ...shares);
  const locked = byId("locked"), wanted = `Locked ${Math.round(most * 100)} % of the ring`;
  if (locked.textContent !== wanted) locked.replaceChildren("Locked ", make("b", { className: "num" }, `${Math.round(most * 100)} %`), " of the ring");
  byId("meter").style.width = `${Math.round(most * 100)}%`;
  const seconds = wishedSeconds() || 60, number = left(seconds);
  byId("meter").parentElement.classList.toggle("full", number === 0);
  say(byId("room"), roomWords(number, seconds) + thenWords(number));
  showDisk(standing.cameras.map((camera) => more[camera.name]?.disk), timeline.now());
}

function roomWords(number, seconds) {
  if (number === null) return "";
  if (number === 0) return `no room for another event of ${length(seconds)}: release one;`;
  return `room for ${count(number, "more event")} of ${length(seconds)}`;
}

/** What comes where all is locked, by the rule of the camera that is locked most; nothing where the station doesn't say it. */
function thenWords(number) {
  const known = standing.cameras.filter((camera) => camera.full && camera.locked !== undefined);
  if (number === null || !known.length) return "";
  const most = known.reduce((one, other) => (other.locked > one.locked ? other : one));
  return `${number === 0 ? "" : ";"} then ${fullWords(most.full)}`;
}

// ------------------------------------------------------------------------------------------------ press

/** Says what became of something, beside the button. */
function answered(text, level) {
  answeredAt = performance.now();
  const element = byId("answer");
  element.className = `answer ${level}`;
  mark(element, "aria-live", "assertive");
  element.replaceChildren(make("span", {}, text));
}

/** The seconds that are wished; nothing where the field has none. */
function wishedSeconds() {
  const typed = byId("seconds").value.trim();
  return /^\d{1,5}$/.test(typed) && Number(typed) >= 1 && Number(typed) <= MOST_SECONDS ? Number(typed) : null;
}

/** The button says what pressing does. */
function name() {
  const range = timeline.range, seconds = wishedSeconds(), camera = byId("camera").value;
  const lasting = range ? (range.to - range.from) / 1e6 : seconds;
  let words = range ? `Keep ${length(lasting)} from ${clock(range.from)}` : `Keep the last ${seconds ? (seconds < 100 ? `${seconds} s` : length(seconds)) : "? s"}`;
  const after = range ? 0 : thenSeconds();
  byId("then").disabled = Boolean(range);
  if (after === null) words += " and then ? s";
  else if (after) words += ` and the next ${length(after)}`;
  if (camera) words += ` of ${camera}`;
  const number = standing && lasting ? left(lasting + (after || 0)) : null;
  if (number === 0) words += ": the ring is then full, and recording stops";
  say(byId("press-text"), words);
  byId("press").classList.toggle("long", words.length > 26);
  say(byId("range"), range ? `Range: ${rangeWords(range)}` : TOUCH.matches ? "Drag for a range, tap for a moment, pinch to zoom" : "Drag for a range, click for a moment, wheel to zoom");
  if (performance.now() - answeredAt > ANSWER_STAYS && standing) {
    const element = byId("answer"), idle = range ? `K keeps the range of ${camera || "all cameras"}. Esc lets it go.` : roomWords(left(seconds || 60), seconds || 60);
    element.className = "answer idle";
    mark(element, "aria-live", "off");
    if (element.textContent !== idle) element.replaceChildren(make("span", {}, idle ? idle[0].toUpperCase() + idle.slice(1) + (idle.endsWith(".") ? "" : ".") : ""));
  }
}

/** The seconds still to come that are wished; nothing where the field has none. */
function thenSeconds() {
  const typed = byId("then").value.trim();
  if (!typed) return 0;
  return /^\d{1,5}$/.test(typed) && Number(typed) <= MOST_SECONDS ? Number(typed) : null;
}

/** The seconds still to come that a press keeps too, by the station's configuration: of one camera, or the most of all. */
function afterOf(name) {
  return Math.max(0, ...(standing?.cameras || []).filter((camera) => !name || camera.name === name).map((camera) => camera.after || 0));
}

/** Keeps the last seconds before the press and those that are wished after it, or the range, of all cameras or of one. `moment` is when that was, as events have it. */
async function keep(moment) {
  if (!may("keep")) return;
  const range = timeline.range, seconds = wishedSeconds(), after = thenSeconds(), camera = byId("camera").value;
  if (!range && after === null) {
    answered(`Then is a whole number of seconds, ${MOST_SECONDS} at most.`, "bad");
    byId("then").focus();
    return;
  }
  if (!range && !seconds) {
    answered(`Seconds are a whole number from 1 to ${MOST_SECONDS}.`, "bad");
    byId("seconds").focus();
    return;
  }
  const wish = range ? { from: Math.round(range.from), to: Math.round(range.to) } : { seconds, after };
  const at = range ? null : link.clock.at(moment);
  if (at !== null) wish.at = at;
  if (camera) wish.camera = camera;
  const note = byId("note").value;
  byId("press").classList.add("asked");
  answered("Asked.", "unknown");
  try {
    const found = await ask("/api/keep", { ...wish, note });
    const [words, level] = keptWords(found.answers, range ? (range.to - range.from) / 1e6 : seconds);
    answered(words, level);
    if (found.kept) {
      // What was written while the answer was awaited stays.
      if (byId("note").value === note) byId("note").value = "";
      if (range && timeline.range === range) timeline.choose(null);
      events.kept(found.answers.flatMap((answer) => (answer.kept ? answer.clips.map((clip) => ({ ...clip, camera: answer.camera })) : [])));
    }
  } catch (fault) {
    answered(fault.message, "bad");
  }
  byId("press").classList.remove("asked");
}

/** What was kept of all cameras, in one sentence; and of which not, and why. */
function keptWords(answers, seconds) {
  const kept = answers.filter((answer) => answer.kept), not = answers.filter((answer) => !answer.kept);
  const faults = faultWords(not);
  if (!kept.length) return [faults || "Nothing was kept.", "bad"];
  const names = [...new Set(kept.map((answer) => answer.camera))], clips = kept.flatMap((answer) => answer.clips).filter((clip) => clip.from_us);
  const all = new Set(answers.map((answer) => answer.camera).filter(Boolean)).size;
  const who = names.length < all ? `${names.length} of ${all} cameras` : camerasOf({ cameras: names });
  const tail = [lackWords(kept), ...new Set(kept.map((answer) => answer.remark)), faults].filter(Boolean).join(" ");
  if (!clips.length) return [`Kept: ${who}. ${tail}`, tail ? "warn" : "good"];
  const until = Math.max(0, ...kept.map((answer) => answer.until_us || 0));
  const from = Math.min(...clips.map((clip) => clip.from_us)), to = Math.max(...clips.map((clip) => clip.to_us)), took = (to - from) / 1e6;
  const words = `Kept ${length(took < seconds - 1 ? took : seconds)} of ${who}, ${clock(from)} to ${clock(to)} ${zone(to)}${until ? `, and on until ${clock(until)}` : ""}.`;
  return [tail ? `${words} ${tail}` : words, tail ? "warn" : "good"];
}

/** Of which cameras nothing was kept, and why: those of one reason together. */
function faultWords(answers) {
  const reasons = new Map();
  for (const { camera, why } of answers) reasons.set(why, [...(reasons.get(why) || []), camera]);
  return [...reasons].map(([reason, names]) => {
    if (!names[0]) return reason;
    return `${names.length < 4 ? names.join(", ") : `${names.length} cameras`}: ${reason}`;
  }).join(" ");
}

/** Which cameras have less than was asked for; of one the reason, of several how much each has, and the reasons are under the bell. */
function lackWords(kept) {
  const lacking = kept.filter((answer) => answer.lack);
  if (!lacking.length) return "";
  if (lacking.length === 1) return kept.length > 1 ? `${lacking[0].camera}: ${lacking[0].lack}` : lacking[0].lack;
  const held = (answer) => (answer.held_us ?? answer.clips.reduce((sum, clip) => sum + clip.to_us - clip.from_us, 0)) / 1e6;
  const named = lacking.slice(0, 4).map((answer) => `${answer.camera} ${length(held(answer))}`), rest = lacking.length - named.length;
  return `Less than was asked for: ${named.join(", ")}${rest ? `, and ${rest} more` : ""}. Why is under the bell.`;
}

/** Less or more time, by steps. */
function stepSeconds(by) {
  const now = wishedSeconds() || 60;
  const next = by > 0 ? SECONDS.find((it) => it > now) ?? now : SECONDS.findLast((it) => it < now) ?? now;
  byId("seconds").value = next;
  name();
  if (standing) room();
}

// ------------------------------------------------------------------------------------------------ the event of a large picture

let shownWithin = null;

/** The event that the large picture is of. */
function within() {
  if (!view.camera) return;
  const moment = view.shown() ?? timeline.now(), event = events.at(view.camera, moment);
  const row = event && rowOf(event);
  if (row === shownWithin) return;
  shownWithin = row;
  byId("within-title").hidden = !event;
  if (!event) return byId("within").replaceChildren();
  const play = make("button", { type: "button", className: "quiet" }, icon("play"), " Side by side"), get = make("button", { type: "button", className: "quiet" }, icon("down"), " Download");
  play.onclick = () => view.playEvent(event);
  get.onclick = () => events.fetch(event);
  const top = make("div", { className: "top" }, make("time", {}, clock(event.from_us)), make("span", { className: "len num" }, `${length(event.seconds)} \u00b7 ${camerasOf(event)}`));
  byId("within").replaceChildren(make("li", { className: "event" }, top, make("div", {}, event.note || "no note"), make("div", { className: "acts" }, play, get)));
}

// ------------------------------------------------------------------------------------------------ keys

const KEYS = [
  ["K", "keep: the last seconds, or the range"], ["N", "write the note"], ["1 to 9", "that camera large; two digits for the tenth and on"], ["0, Esc", "all cameras; let the range go; live"],
  ["L", "live"], ["Space", "play, stop"], ["\u2190 \u2192", "a frame back, on; with Shift a range"], ["Page Up, Page Down", "a second back, on"], ["Home, End", "the first moment, the last"],
  ["I, O", "the range starts here, ends here"], ["[ ]", "the event before, the next one"], ["+ \u2212", "zoom the timeline"], ["< >", "move the timeline"], ["A", "stretch pictures by themselves, or not"], ["M", "measure in a large picture; arrows move an end, with Shift by ten"], ["B", "warnings"], ["E, /", "events; search them"], ["?", "these keys"],
];
let digits = "";
let digitsTimer = null;

/** A digit: a camera by its place. */
function digit(key) {
  clearTimeout(digitsTimer);
  digits += key;
  const place = Number(digits), isMore = place && place * 10 <= cameraNames.length;
  if (place >= 1 && place <= cameraNames.length) view.open(cameraNames[place - 1]);
  else if (key === "0") view.open(null);
  if (isMore) digitsTimer = setTimeout(() => { digits = ""; }, DIGITS);
  else digits = "";
}

/** Lets go, step by step: the panel, the range, the moment, the large picture. */
function escape() {
  if (byId("warnings").open) ring();
  else if (timeline.range) timeline.choose(null);
  else if (ruler.ends) ruler.close();
  else if (view.moment !== null || view.scrubbed !== null) view.live();
  else if (view.camera) view.open(null);
}

/** Goes some frames on, and makes the range longer where that is asked for. */
function step(by, isRange) {
  const from = view.moment ?? timeline.now();
  if (!isRange) timeline.anchor = null;
  view.step(by, isRange ? (moment) => timeline.extend(from, moment) : undefined);
}

/** The moment at which the next event was asked for, or the one before. */
function toEvent(by) {
  const found = timeline.beside(view.moment ?? timeline.now(), by);
  if (found === null) return;
  view.pin(found);
  timeline.see(found);
}

const WORK = {
  k: keep, n: () => may("keep") && byId("note").focus(), l: () => view.live(), " ": () => view.toggle(), i: () => view.bound("from"), o: () => view.bound("to"),
  "+": () => timeline.zoom(1 / 1.5), "=": () => timeline.zoom(1 / 1.5), "-": () => timeline.zoom(1.5), "<": () => timeline.pan(-0.3), ">": () => timeline.pan(0.3),
  "[": () => toEvent(-1), "]": () => toEvent(1), m: () => ruler.toggle(), a: () => (view.camera ? large.auto() : view.levels.auto()), b: ring, "/": () => byId("search").focus(), e: () => (byId("events").querySelector("button") || byId("events")).focus(), "?": () => byId("help").showModal(),
  pageup: () => view.second(-1), pagedown: () => view.second(1), home: () => view.edge(false), end: () => view.edge(true),
};

function pressed(event) {
  if (event.ctrlKey || event.altKey || event.metaKey || document.querySelector("dialog:modal")) return;
  const target = event.target, isField = target.matches("input, select, textarea"), key = event.key.toLowerCase();
  if (key === "escape") {
    if (isField) target.blur();
    else escape();
    return;
  }
  // Somebody whose words are typed as letters by a machine may switch these keys off.
  if (!byId("letters").checked && key.length === 1 && key !== " ") return;
  // In a field letters are text; on a button the space bar presses it.
  if (isField || (key === " " && target.matches("button, summary, a"))) return;
  if (key === "arrowleft" || key === "arrowright") step((key === "arrowleft" ? -1 : 1), event.shiftKey);
  else if (key === "enter" && target === timeline.canvas && timeline.range) keep(event.timeStamp);
  else if (/^\d$/.test(key)) digit(key);
  else if (WORK[key] && !(event.repeat && key === "k")) WORK[key](event.timeStamp);
  else return;
  event.preventDefault();
}

// ------------------------------------------------------------------------------------------------ begin

/** The time of the day, by the server's clock, with its zone. */
function tick() {
  const now = timeline.now(), whole = clock(now, 1), element = byId("clock");
  if (!standing) return;
  if (element.children.length !== 1) element.replaceChildren("", make("small"));
  element.firstChild.data = whole.slice(0, -2);
  say(element.lastChild, `${whole.slice(-2)} ${zone(now)}`);
}

byId("bell").append(icon("bell"), make("span", { id: "badge", className: "badge", hidden: true, ariaHidden: "true" }));
byId("leave").querySelector("button").append(icon("out"));
byId("warnings-close").append(icon("close"));
byId("keys").append(...KEYS.flatMap(([keys, what]) => [make("dt", {}, ...keys.split(", ").flatMap((key, place) => [place ? " " : "", make("kbd", {}, key)])), make("dd", {}, what)]));
say(byId("zone"), `Times on this page are ${zone()}, the zone of your browser. Names and times in files are UTC. Triangle: wrong; diamond: look; circle: well.`);
byId("bell").onclick = ring;
byId("warnings-close").onclick = ring;
byId("all-seen").onclick = () => sawAll(standing.alerts.map((alert) => alert.id));
byId("ask").onclick = () => byId("help").showModal();
byId("what").onclick = advise;
byId("all").onclick = () => view.open(null);
byId("letters").checked = localStorage.getItem("letters") !== "off";
byId("letters").onchange = () => localStorage.setItem("letters", byId("letters").checked ? "on" : "off");
byId("less").onclick = () => stepSeconds(-1);
byId("more").onclick = () => stepSeconds(1);
byId("seconds").oninput = () => { name(); if (standing) room(); };
byId("then").oninput = name;
byId("camera").onchange = () => {
  byId("then").value = afterOf(byId("camera").value);
  name();
};
byId("keep").onsubmit = (event) => {
  event.preventDefault();
  keep(event.timeStamp);
};
document.addEventListener("keydown", pressed);
// Who comes back to this page hasn't lost its server.
addEventListener("pageshow", () => { heard = performance.now(); });
askRights();
link.listen();
link.clock.measure();
setInterval(watch, 250);
setInterval(() => {
  stage.ages();
  large.old();
}, 250);
setInterval(tick, 100);
