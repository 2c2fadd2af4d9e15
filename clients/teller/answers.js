// Reads the counter's answers exactly. A text that isn't, byte for byte, an answer to what was asked is no answer, whatever a proxy or a fault on the way made of it.

import { readDay, readMoney } from "./spelling.js";
import { readSerial } from "./typed.js";

const REFUSED_KEYS = ["code", "month", "refused", "serial", "ticket"];
const FAULT_KEYS = ["code", "fault", "field"];

function parsed(text) {
  try {
    const value = JSON.parse(text);
    return typeof value === "object" && value !== null && !Array.isArray(value) ? value : null;
  } catch {
    return null;
  }
}

/**
 * The value, if its compact text with these keys in this order is the text.
 * @returns {Record<string, any> | null}
 */
function exactly(text, keys) {
  const value = parsed(text);
  if (value === null) return null;
  const same = Object.fromEntries(keys.filter((key) => key in value).map((key) => [key, value[key]]));
  return JSON.stringify(same) === text ? same : null;
}

function isNumber(value) {
  return Number.isSafeInteger(value) && value >= 0;
}

function centsOf(text) {
  return typeof text === "string" ? readMoney(text) : null;
}

function isDay(text) {
  return typeof text === "string" && readDay(text) === text;
}

function lineOf(line) {
  const one = exactly(JSON.stringify(line), ["paid", "serial"]);
  if (one === null || typeof one.serial !== "string" || readSerial(one.serial) !== one.serial) return null;
  const cents = centsOf(one.paid);
  return cents === null ? null : { serial: one.serial, cents };
}

// A ticket whose lines add up to its total.
export function readTicket(text) {
  const value = exactly(text, ["day", "lines", "payee", "ticket", "total"]);
  if (value === null || !isDay(value.day) || !isNumber(value.payee) || !isNumber(value.ticket) || !Array.isArray(value.lines)) return null;
  const lines = value.lines.map(lineOf);
  const total = centsOf(value.total);
  if (total === null || lines.length === 0 || lines.includes(null)) return null;
  return lines.reduce((cents, line) => cents + line.cents, 0n) === total ? { kind: "ticket", day: value.day, payee: value.payee, ticket: value.ticket, lines, total } : null;
}

export function readBatch(text) {
  const value = exactly(text, ["bonds", "day", "tickets", "total"]);
  if (value === null || !isDay(value.day) || !isNumber(value.bonds) || !isNumber(value.tickets)) return null;
  const total = centsOf(value.total);
  return total === null ? null : { kind: "batch", day: value.day, bonds: value.bonds, tickets: value.tickets, total };
}

function readOpened(text) {
  const value = exactly(text, ["opened"]);
  return value !== null && isDay(value.opened) ? { kind: "opened", day: value.opened } : null;
}

function readAdded(text) {
  const value = exactly(text, ["new", "same"]);
  return value !== null && isNumber(value.new) && isNumber(value.same) ? { kind: "added", new: value.new, same: value.same } : null;
}

const ROW_KEYS = ["denom", "final", "interest", "issued", "next", "note", "price", "rate", "value"];

/**
 * The row of a bond that isn't registered, with its money as cents.
 * @returns {Record<string, any> | null}
 */
export function readRow(text) {
  const row = exactly(text, ROW_KEYS);
  if (row === null || ROW_KEYS.some((key) => !(key in row))) return null;
  const [price, interest, value] = [row.price, row.interest, row.value].map(centsOf);
  const is_spelled = price !== null && interest !== null && value !== null;
  return is_spelled && price + interest === value ? { kind: "value", ...row, price, interest, value } : null;
}

function isTicketOf(ticket, { day, payee, serials }) {
  return ticket.day === day && ticket.payee === payee && ticket.lines.length === serials.length && ticket.lines.every((line, place) => line.serial === serials[place]);
}

// The reply to an act, if the text is one and speaks of exactly what was asked.
export function replyTo(path, fields, text) {
  if (path === "/redeem") {
    const ticket = readTicket(text);
    return ticket !== null && isTicketOf(ticket, fields) ? ticket : null;
  }
  if (path === "/bonds") {
    const added = readAdded(text);
    return added !== null && added.new + added.same === fields.bonds.length ? added : null;
  }
  const reply = path === "/day/open" ? readOpened(text) : readBatch(text);
  return reply !== null && reply.day === fields.day ? reply : null;
}

function readRefused(text) {
  const value = exactly(text, REFUSED_KEYS);
  return value !== null && isNumber(value.code) && typeof value.refused === "string" ? { kind: "refused", name: value.refused, ...value } : null;
}

function readFault(text) {
  const value = exactly(text, FAULT_KEYS);
  return value !== null && isNumber(value.code) && typeof value.fault === "string" ? { kind: "fault", name: value.fault, ...value } : null;
}

function readUnserved(text) {
  const value = exactly(text, ["code", "unserved"]);
  return value !== null && isNumber(value.code) && typeof value.unserved === "string" ? { kind: "unserved", name: value.unserved, ...value } : null;
}

// The proxy's reasons not to pass a request on.
const FORBIDDEN = ["certificate", "request", "origin", "client", "type", "group", "chunks", "size", "host"];

// What isn't the counter's answer: one of the proxy's own, or of something else.
function otherAnswer(status, text) {
  const { forbidden, unavailable } = parsed(text) ?? /** @type {Record<string, any>} */ ({});
  if (status >= 400 && status < 500 && FORBIDDEN.includes(forbidden)) return { kind: "forbidden", why: forbidden };
  if (status === 429) return { kind: "none", why: "busy" };
  return { kind: "none", why: status >= 500 && unavailable === "counter" ? "unavailable" : "status", status };
}

const NAME = /^[a-z0-9._@-]{1,64}$/;

// Who the user is, as the proxy says under /user: the name in the certificate, and the groups.
export function readUser(text) {
  const { user, groups } = parsed(text) ?? /** @type {Record<string, any>} */ ({});
  return typeof user === "string" && NAME.test(user) && typeof groups === "string" ? { kind: "user", name: user, groups: groups.split(" ") } : null;
}

// Reads a response: what `read` makes of a 200, a refusal, a fault, a request that wasn't served, one that the proxy didn't pass on, or no answer of the counter.
export function readAnswer(status, text, read) {
  const other = otherAnswer(status, text);
  if (status === 200) return read(text) ?? other;
  if (status === 409) return readRefused(text) ?? other;
  if (status === 503) return readUnserved(text) ?? other;
  if ([400, 404, 405, 413].includes(status)) return readFault(text) ?? other;
  return other;
}

// The name of the proxy's log entry for a request, from the header X-Request-Id. Null without one: the page needs none.
export function readEntry(header) {
  return /(?:^|[ ,])([0-9a-f]{32})$/.exec(header ?? "")?.[1] ?? null;
}
