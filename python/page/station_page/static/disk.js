// What the cameras take of their disks, in words: room, writes, the oldest frame's age, and the hours that are left.
import { byId, length, make, say, size } from "/static/words.js";

const SHORT = 600;

/** A camera's figures in words, at a time in microseconds; nothing where the server doesn't say them. */
export function diskRows(disk, now) {
  if (!disk) return [];
  const free = Number.isFinite(disk.free_bytes) ? `, ${size(disk.free_bytes)} of ${size(disk.disk_bytes)} free beside it` : "";
  return [
    ["Ring", `${size(disk.ring_bytes)}${free}`],
    ["Writes", `${size(disk.writes)}/s`],
    ["Oldest", Number.isFinite(disk.oldest_us) ? `${length(Math.max(0, now - disk.oldest_us) / 1e6)} old` : "nothing"],
    ["Left", `${length(disk.left_seconds)} not locked`, disk.left_seconds < SHORT && disk.left_seconds * disk.writes < 0.1 * disk.ring_bytes],
  ];
}

/** All cameras' figures as one: what they write together, and the least of the others. */
export function showDisk(disks, now) {
  const known = disks.filter(Boolean), least = (word) => Math.min(...known.map((disk) => disk[word] ?? Infinity));
  const oldest = Math.max(...known.map((disk) => disk.oldest_us ?? -Infinity)), free = least("free_bytes"), list = byId("disk");
  list.hidden = !known.length;
  if (!known.length) return;
  const rows = [
    ["Rings", `${size(known.reduce((sum, disk) => sum + disk.ring_bytes, 0))}${Number.isFinite(free) ? `, ${size(free)} free` : ""}`],
    ["Writes", `${size(known.reduce((sum, disk) => sum + disk.writes, 0))}/s`],
    ["Oldest", Number.isFinite(oldest) ? `${length(Math.max(0, now - oldest) / 1e6)} old` : "nothing"],
    ["Left", `${length(least("left_seconds"))} not locked`],
  ];
  if (list.children.length !== 2 * rows.length) list.replaceChildren(...rows.flatMap(() => [make("dt"), make("dd")]));
  rows.flat().forEach((text, place) => say(list.children[place], text));
}
