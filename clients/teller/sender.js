// The rules by which a request gets its one reply. The request is written into the journal, with its number, before it is sent. It is sent again under that number, with growing
// pauses, until the counter's reply has come. There is one request at a time.
//
// NumberReused means that another request of this desk has the number. The same request would have got its own reply, so this one was never done under that number, and no copy of it
// that is still on its way ever will be. It continues under a higher number, which is written into the journal first.
//
// A fault, or the proxy's word that it didn't pass the request on, answers one sending. On the first sending it is final: nothing was done, and no other sending is on its way, since the proxy passes
// no repeat of the browser's own on. On a later one it tells nothing about the sendings before it, so the request stays open. A request without a certificate of the staff always does: it is sent again.
//
// A registration may have a payment that follows it (`then`). When the registration's reply has come, the payment takes its place in the journal, in one step. So whenever the page is closed or
// killed, it sends the one or the other, and a registration that was refused pays nothing.
//
// Nothing is sent that isn't written into the journal. If the browser can't write it, the page pauses and tries again.

import { replyTo } from "./answers.js";
import { Unstored } from "./journal.js";
import { posted } from "./messages.js";

const PAUSES = [500, 1000, 2000, 4000, 8000, 15000];
const NUMBER_REUSED = 10;
// Faults of the way, not of what was sent: an unreadable head, a changed head or length, a message that was cut.
const DAMAGED = [60, 61, 63, 68];

function isReply(answer) {
  return ["ticket", "batch", "opened", "added", "refused"].includes(answer.kind);
}

// An answer to this sending alone, which would be the same for the next one.
function isOfOneSending(answer) {
  return (answer.kind === "forbidden" && answer.why !== "certificate") || (answer.kind === "fault" && !DAMAGED.includes(answer.code));
}

function isFinal(answer, sent) {
  return (isReply(answer) && !isReused(answer)) || (isOfOneSending(answer) && sent === 1);
}

// That a request wasn't done at all, which is shown once it is dropped: a page that is killed before sends it again.
export function isNotDone(answer) {
  return !isReply(answer);
}

// The least number after one; the rules know no greater than JavaScript counts to.
function after(number) {
  if (!Number.isSafeInteger(number + 1)) throw new Error("this desk has no numbers left");
  return number + 1;
}

function isReused(answer) {
  return answer.kind === "refused" && answer.code === NUMBER_REUSED;
}

// How long the page waits after a sending without a reply.
function pauseAfter(failures) {
  return PAUSES[Math.min(failures, PAUSES.length - 1)];
}

export class Sender {
  #journal;
  #tell;
  #wake = () => {};
  #is_busy = false;

  // `tell` is called with each step of a request: { step: "sending" | "pausing" | "renumbered", .. }.
  constructor(journal, tell) {
    this.#journal = journal;
    this.#tell = tell;
  }

  get isOpen() {
    return this.#journal.record.open !== null;
  }

  // Sends a new request until its reply has come. `more` stays with it in the journal: `shown`, the sum that the teller confirmed, in cents as a text; the `teller`; `bonds`;
  // and `then`, the request that follows it.
  submit(path, fields, more = {}) {
    return this.#alone(async () => {
      if (this.isOpen) throw new Error("a request is open");
      const number = this.#journal.record.next;
      await this.#journal.change({ next: after(number), open: { number, step: 1, sent: 0, path, fields, ...more } });
      return this.#finished();
    });
  }

  // Sends the open request until its reply has come. It stays in the journal until `forget`.
  finish() {
    return this.#alone(() => this.#finished());
  }

  async #alone(work) {
    if (this.#is_busy) throw new Error("a request is under way");
    this.#is_busy = true;
    try {
      return await work();
    } finally {
      this.#is_busy = false;
    }
  }

  async #finished() {
    for (let failures = 0; ; ) {
      const answer = await this.#sentOnce();
      const { open } = this.#journal.record;
      if (isFinal(answer, open.sent)) {
        if (answer.kind !== "added" || open.then === undefined) return { ...answer, request: open };
        await this.#followed(answer);
        failures = 0;
        continue;
      }
      const missed = isReused(answer) ? await this.#renumbered() : answer;
      if (missed === null) continue;
      await this.#pause(missed, pauseAfter(failures));
      failures += 1;
    }
  }

  // Puts the request that follows a registration in its place. It keeps what was registered: how many bonds were new, how many were registered before, and how often that was sent.
  async #followed(added) {
    const { open, next } = this.#journal.record;
    const registered = { new: added.new, same: added.same, sent: open.sent };
    for (let failures = 0; ; failures += 1) {
      const missed = await this.#written({ next: after(next), open: { number: next, step: 1, sent: 0, teller: open.teller, ...open.then, registered } });
      if (missed === null) return;
      await this.#pause({ ...missed, is_replied: true }, pauseAfter(failures));
    }
  }

  // Drops the request from the journal, once its reply was shown, and `keep` has kept what there is to keep of it. One that wasn't done is dropped before that is shown.
  async forget(changes, keep = async () => {}) {
    for (let failures = 0; ; failures += 1) {
      const missed = await this.#written({ ...changes, open: null }, keep);
      if (missed === null) return;
      await this.#pause({ ...missed, is_replied: true }, pauseAfter(failures));
    }
  }

  // Ends the pause that is on.
  sendNow() {
    this.#wake();
  }

  // Null once the changes are in the journal, and else why not.
  async #written(changes, before = async () => {}) {
    try {
      await before();
      await this.#journal.change(changes);
      return null;
    } catch (error) {
      if (error instanceof Unstored) return { kind: "unstored", fault: error.fault };
      throw error;
    }
  }

  async #sentOnce() {
    const { open, desk } = this.#journal.record;
    const sending = { ...open, sent: open.sent + 1 };
    const missed = await this.#written({ open: sending });
    if (missed !== null) return missed;
    this.#tell({ step: "sending", request: sending });
    return posted(open.path, { desk, number: open.number, ...open.fields }, (text) => replyTo(open.path, open.fields, text));
  }

  async #renumbered() {
    const { open } = this.#journal.record;
    const number = open.number + open.step;
    const missed = await this.#written({ next: after(number), open: { ...open, number, step: open.step * 2, sent: 0 } });
    if (missed === null) this.#tell({ step: "renumbered", request: this.#journal.record.open });
    return missed;
  }

  async #pause(answer, milliseconds) {
    this.#tell({ step: "pausing", request: this.#journal.record.open, answer, milliseconds });
    await new Promise((resolve) => {
      const timer = setTimeout(resolve, milliseconds);
      this.#wake = () => {
        clearTimeout(timer);
        resolve();
      };
    });
    this.#wake = () => {};
  }
}
