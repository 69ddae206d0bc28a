// Elements, icons, and numbers and times in words. Times are those of the browser's zone.

export const byId = (id) => document.getElementById(id);

/** An element with its attributes, properties and children. */
export function make(kind, given = {}, ...children) {
  const element = document.createElement(kind);
  for (const [key, value] of Object.entries(given)) {
    if (key in element && key !== "list") element[key] = value;
    else element.setAttribute(key, value);
  }
  element.append(...children);
  return element;
}

/** Sets a text where it is another one, so that nothing is read aloud again. */
export function say(element, text) {
  if (element.textContent !== text) element.textContent = text;
}

/** Sets an attribute where it is another one. */
export function mark(element, name, value) {
  if (element.getAttribute(name) !== value) element.setAttribute(name, value);
}

const ICONS = {
  bell: ["M4 12V7a4 4 0 0 1 8 0v5", "M2.5 12h11", "M7 14.4h2"],
  out: ["M6.5 3H3v10h3.5", "M7 8h6.5", "M11 5.5 13.5 8 11 10.5"],
  play: ["!M4.5 3v10l8.5-5z"],
  pause: ["!M4 3h3v10H4z", "!M9 3h3v10H9z"],
  frameBack: ["!M11.5 3.5v9L6 8z", "M4 3.5v9"],
  frameOn: ["!M4.5 3.5v9L10 8z", "M12 3.5v9"],
  secondBack: ["!M8 3.5v9L2.5 8z", "!M13.5 3.5v9L8 8z"],
  secondOn: ["!M8 3.5v9L13.5 8z", "!M2.5 3.5v9L8 8z"],
  down: ["M8 2.5v8", "M4.8 7.5 8 10.7l3.2-3.2", "M3 13.5h10"],
  close: ["M4 4l8 8", "M12 4l-8 8"],
};

/** An icon. It has no name of its own: its button has. */
export function icon(name) {
  const space = "http://www.w3.org/2000/svg";
  const drawing = document.createElementNS(space, "svg");
  for (const [key, value] of [["class", "i"], ["viewBox", "0 0 16 16"], ["aria-hidden", "true"]]) drawing.setAttribute(key, value);
  for (const path of ICONS[name]) {
    const line = document.createElementNS(space, "path");
    line.setAttribute("d", path.replace("!", ""));
    if (path.startsWith("!")) line.setAttribute("class", "solid");
    drawing.append(line);
  }
  return drawing;
}

const two = (number) => String(number).padStart(2, "0");

/** The day of a time. */
export function day(microseconds) {
  const moment = new Date(microseconds / 1000);
  return `${moment.getFullYear()}-${two(moment.getMonth() + 1)}-${two(moment.getDate())}`;
}

/** A time of the day, with so many digits of the second; with its date where that isn't today's. */
export function clock(microseconds, digits = 0) {
  const moment = new Date(microseconds / 1000);
  const parts = [moment.getHours(), moment.getMinutes(), moment.getSeconds()].map(two).join(":");
  const time = digits ? `${parts}.${String(moment.getMilliseconds()).padStart(3, "0").slice(0, digits)}` : parts;
  return moment.toDateString() === new Date().toDateString() ? time : `${day(microseconds)} ${time}`;
}

/** The zone of a time, such as UTC+1. */
export function zone(microseconds = Date.now() * 1000) {
  const minutes = -new Date(microseconds / 1000).getTimezoneOffset();
  if (!minutes) return "UTC";
  const size = Math.abs(minutes), rest = size % 60 ? `:${two(size % 60)}` : "";
  return `UTC${minutes < 0 ? "\u2212" : "+"}${Math.floor(size / 60)}${rest}`;
}

/** A length of time, for reading. */
export function length(seconds) {
  if (seconds < 10) return `${trimmed(seconds.toFixed(1))} s`;
  if (seconds < 100) return `${Math.round(seconds)} s`;
  if (seconds < 3600) {
    const rest = Math.round(seconds % 60);
    return rest && rest < 60 ? `${Math.floor(seconds / 60)} min ${rest} s` : `${Math.round(seconds / 60)} min`;
  }
  const minutes = Math.round(seconds / 60) % 60;
  return minutes ? `${Math.floor(seconds / 3600)} h ${minutes} min` : `${Math.round(seconds / 3600)} h`;
}

/** A number without zeros at its end. */
export const trimmed = (text) => text.replace(/\.0+$/, "");

/** Hours, minutes and seconds that something lasts. */
export function lasting(seconds) {
  const whole = Math.floor(seconds);
  return `${two(Math.floor(whole / 3600))}:${two(Math.floor(whole / 60) % 60)}:${two(whole % 60)}`;
}

/** A number of bytes. */
export function size(bytes) {
  if (bytes < 1e6) return `${Math.ceil(bytes / 1000)} kB`;
  return bytes < 1e9 ? `${(bytes / 1e6).toFixed(bytes < 1e7 ? 1 : 0)} MB` : `${(bytes / 1e9).toFixed(1)} GB`;
}

/** So many of a thing. */
export const count = (number, word) => `${number} ${word}${number === 1 ? "" : "s"}`;

const HTML_COLOUR = new Map();
matchMedia("(prefers-color-scheme: light)").addEventListener("change", () => HTML_COLOUR.clear());

/** A colour of the theme. */
export function colour(name) {
  if (!HTML_COLOUR.has(name)) HTML_COLOUR.set(name, getComputedStyle(document.documentElement).getPropertyValue(`--${name}`).trim());
  return HTML_COLOUR.get(name);
}

/** Makes a canvas as large as it is shown, in the screen's pixels; answers its pen, which draws in CSS pixels, and both sizes. */
export function penOf(canvas) {
  const ratio = devicePixelRatio || 1, width = canvas.clientWidth, height = canvas.clientHeight;
  const wide = Math.max(1, Math.round(width * ratio)), high = Math.max(1, Math.round(height * ratio));
  if (canvas.width !== wide || canvas.height !== high) Object.assign(canvas, { width: wide, height: high });
  const pen = canvas.getContext("2d");
  pen.setTransform(ratio, 0, 0, ratio, 0, 0);
  pen.clearRect(0, 0, width, height);
  return { pen, width, height };
}

/** How many frames of a camera were lost since the station began: by its source, and given up after that. */
export const lostFrames = (camera) => (camera.lost ?? 0) + (camera.given_up ?? 0);

/** The same in words. */
export function lostWords(camera) {
  if (camera.given_up === null || camera.given_up === undefined) return "unknown";
  const by = [[camera.lost, "before they came"], [camera.estimated, "of these by times alone"], [camera.given_up, "after"]];
  const parts = by.filter(([number]) => number).map(([number, text]) => `${number.toLocaleString("en")} ${text}`);
  return parts.length ? `${count(lostFrames(camera), "frame")}: ${parts.join(", ")}` : "none";
}

/** What comes of it where all of a ring is locked, by the station's word. */
export function fullWords(rule) {
  const [what, tag] = rule.split(" tag ");
  const words = { "release saved": "the oldest saved event is released", "release oldest": "the oldest event is released" }[what];
  return words ? words + (tag ? ` of tag ${tag}` : "") : "recording stops";
}
