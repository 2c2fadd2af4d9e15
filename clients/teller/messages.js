// Sends one message to the counter and reads its answer. Paths are those of the page's own origin.

import { readAnswer, readEntry } from "./answers.js";
import { dayOf } from "./spelling.js";

// Longer than the 30 seconds for which another client can hold the desk.
export const TIME_LIMIT = 40_000;

// No page of another origin can send this header without asking first, so the proxy demands it.
const OWN = { "X-Counter-Client": "teller-page" };

/** @type {RequestInit} */
const SETTINGS = { cache: "no-store", credentials: "same-origin", redirect: "manual" };

/**
 * `timeout` and `any` are newer than the compiler that checks types.
 * @type {any}
 */
const Signals = AbortSignal;

// The server's time of the last response, and when that was by a clock that only counts up.
let heard = null;

// The server's time of a response in milliseconds; null if its header Date can't be read.
function timeOf(response) {
  const at = Date.parse(response.headers.get("Date") ?? "");
  if (Number.isNaN(at)) return null;
  heard = { at, since: performance.now() };
  return at;
}

// The server's time now, in milliseconds; null before the first response. The machine's own clock may be wrong, and plays no part.
export function serverTime() {
  return heard === null ? null : Math.round(heard.at + performance.now() - heard.since);
}

// Today by the server's clock, since this machine's may be wrong.
export function serverToday() {
  return dayOf(serverTime() ?? Date.now());
}

function failed(error, cancel) {
  if (cancel?.aborted) return { kind: "cancelled" };
  return error.name === "TimeoutError" ? { kind: "none", why: "time", seconds: TIME_LIMIT / 1000 } : { kind: "none", why: "lost" };
}

async function exchanged(path, options, read, cancel) {
  const limit = Signals.timeout(TIME_LIMIT);
  const signal = cancel === undefined ? limit : Signals.any([limit, cancel]);
  try {
    const response = await fetch(new URL(path, location.origin), { ...SETTINGS, signal, ...options });
    if (response.type === "opaqueredirect") return { kind: "none", why: "redirected" };
    const at = timeOf(response);
    return { ...readAnswer(response.status, await response.text(), read), at, entry: readEntry(response.headers.get("X-Request-Id")) };
  } catch (error) {
    return failed(error, cancel);
  }
}

// A look-up, which the signal `cancel` ends.
export function asked(path, read, cancel) {
  return exchanged(path, { method: "GET", headers: OWN }, read, cancel);
}

// Each sending has a name of its own. If its connection breaks, a browser may send a POST again by itself, and the page doesn't know: the proxy then knows the name, and doesn't pass it on. So what the
// counter answers is the answer to the one sending that the page knows of.
export function posted(path, body, read) {
  const headers = { ...OWN, "Content-Type": "application/json", "X-Counter-Sending": crypto.randomUUID() };
  return exchanged(path, { method: "POST", headers, body: JSON.stringify(body) }, read);
}
