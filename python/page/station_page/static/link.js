// The server: requests, and the one answer that doesn't end, over which all comes that is new.

/** Asks the server for something, and answers its JSON. What goes wrong is thrown, in a sentence. */
export async function ask(path, body) {
  let answer;
  try {
    answer = await fetch(path, body === undefined ? {} : {
      method: "POST", headers: { "Content-Type": "application/json", "X-Loop-Page": "1" }, body: JSON.stringify(body),
    });
  } catch {
    throw new Error("The page's server doesn't answer. Does loop_page run?");
  }
  if (answer.status === 401) location.assign("/sign-in");
  const found = await answer.json().catch(() => ({}));
  if (!answer.ok && !found.answers) throw new Error(found.error || found.text || `The server answers ${answer.status}.`);
  return found;
}

const AGAIN = 1000;
const TELL = 300;
const LENGTHS = 8;
const SAMPLES = 8;
const SOON = 500;
const LATER = 10000;
// By how many microseconds two answers of one clock may contradict each other.
const SLACK = 5000;

/** The server's clock, measured by its answers: the quickest of the last ones counts, and what it took bounds the error. */
export class Clock {
  constructor() {
    this.samples = [];
  }

  /** An answer: when it was asked for and heard, in milliseconds of this page, and what it said in microseconds. */
  add(asked, told, heard) {
    const took = (heard - asked) * 1000, offset = told - (asked + heard) * 500;
    // Earlier ones that can't be so beside it are of a clock that was set since.
    const fit = this.samples.filter((it) => Math.abs(it.offset - offset) <= (it.took + took) / 2 + SLACK);
    this.samples = [...fit, { took, offset }].slice(-SAMPLES);
  }

  /** The server's time in microseconds, now or at a moment of this page (as events have it); null while nothing is known of it. */
  at(moment = performance.now()) {
    if (!this.samples.length) return null;
    const { offset } = this.samples.reduce((one, other) => (other.took < one.took ? other : one));
    return Math.round(moment * 1000 + offset);
  }

  /** Asks what the time is, without end: soon at first. */
  async measure() {
    for (;;) {
      const asked = performance.now();
      const found = await fetch("/api/clock").then((answer) => answer.json()).catch(() => null);
      if (Number.isFinite(found?.now_us)) this.add(asked, found.now_us, performance.now());
      await new Promise((done) => setTimeout(done, this.samples.length < SAMPLES / 2 ? SOON : LATER));
    }
  }
}

/** Bytes that have come, until messages of them are whole. */
class Gathered {
  constructor() {
    this.parts = [];
    this.size = 0;
  }

  add(part) {
    this.parts.push(part);
    this.size += part.length;
  }

  /** The first so many bytes; none where fewer have come. With `keep` they stay. */
  take(count, keep = false) {
    if (this.size < count) return null;
    if (this.parts[0].length < count) {
      const whole = new Uint8Array(this.size);
      let at = 0;
      for (const part of this.parts) {
        whole.set(part, at);
        at += part.length;
      }
      this.parts = [whole];
    }
    const found = this.parts[0].subarray(0, count);
    if (keep) return found;
    this.parts[0] = this.parts[0].subarray(count);
    this.size -= count;
    if (!this.parts[0].length) this.parts.shift();
    return found;
  }
}

export class Link {
  /** `heard` is called with each message: its head, and the bytes of its body. */
  constructor(heard) {
    this.heard = heard;
    this.clock = new Clock();
    this.refused = "";
    this.view = {};
    this.turn = 0;
    this.id = null;
    this.text = new TextDecoder();
    this.leaves = new AbortController();
    // A browser keeps pages that were left, to go back to them, and gives all pages of a server six connections together: a page that was left takes none.
    addEventListener("pagehide", () => this.leaves.abort());
  }

  /** Listens, again where the server was lost. */
  async listen() {
    for (;;) {
      try {
        await this.once();
      } catch {
        // Lost: `watch` in page.js says so.
      }
      this.id = null;
      await new Promise((done) => setTimeout(done, AGAIN));
    }
  }

  /** Listens until the server is lost. */
  async once() {
    this.leaves = new AbortController();
    const answer = await fetch("/api/stream", { signal: this.leaves.signal });
    if (answer.status === 401) location.assign("/sign-in");
    // Why this page isn't let in, as where too many are open.
    this.refused = answer.ok ? "" : (await answer.json().catch(() => ({}))).error || "";
    if (!answer.ok) return;
    const reader = answer.body.getReader(), gathered = new Gathered();
    this.taken = this.told = 0;
    for (;;) {
      const { done, value } = await reader.read();
      if (done) return;
      this.taken += value.length;
      gathered.add(value);
      this.tell();
      while (this.message(gathered));
    }
  }

  /** Says now and then how many bytes were taken: what is between may hold much, and the server sends no more than the line takes. */
  tell() {
    if (this.isTelling || !this.id) return;
    this.isTelling = true;
    setTimeout(async () => {
      this.told = this.taken;
      await ask("/api/took", { stream: this.id, bytes: this.told }).catch(() => {});
      this.isTelling = false;
      if (this.told !== this.taken) this.tell();
    }, TELL);
  }

  /** Hands on a message, where one is whole. */
  message(gathered) {
    const front = gathered.take(LENGTHS, true);
    if (!front) return false;
    const look = new DataView(front.buffer, front.byteOffset, LENGTHS), head = look.getUint32(0), body = look.getUint32(4);
    const whole = gathered.take(LENGTHS + head + body);
    if (!whole) return false;
    const told = JSON.parse(this.text.decode(whole.subarray(LENGTHS, LENGTHS + head)));
    if (told.kind === "hello") {
      this.id = told.id;
      this.send();
    }
    this.heard(told, whole.subarray(LENGTHS + head));
    return true;
  }

  /** Says what this page looks at. Where that changes while it is said, the newest is said after it. */
  look(view) {
    this.view = view;
    this.turn += 1;
    this.send();
    return this.turn;
  }

  async send() {
    if (this.isSending || !this.id) {
      this.isStale = true;
      return;
    }
    this.isSending = true;
    this.isStale = false;
    await ask("/api/view", { ...this.view, stream: this.id, turn: this.turn }).catch(() => {});
    this.isSending = false;
    if (this.isStale) this.send();
  }
}
