// Finds the latest tickets and batches by look-ups. Tickets are numbered 1, 2, 3 and on, and their days never fall (docs/MODEL.md). So the last one is found by doubling steps and halving, and the
// tickets of a day stand together.

import { askBatch, askTicket, isMissing } from "./queries.js";
import { dayAfter } from "./spelling.js";

// An answer that tells nothing of what was asked.
export class Unanswered extends Error {
  constructor(answer) {
    super("a look-up wasn't answered");
    this.answer = answer;
  }
}

// The sums of tickets that were looked up since this page was loaded, by number. A ticket never changes.
const known = new Map();
let last = 0;

// The tickets of this desk on its day, by number, as its journal has them.
const own = new Map();

// The number of look-ups at a time, and then the milliseconds between two, so that a long list stays below the proxy's limit for a user at an address, and leaves room for payments. If the proxy has had
// too many requests all the same, as of the same user in another browser, the page asks more slowly.
const AT_ONCE = 100;
const SPACE = 125;
const MOST_SPACE = 1000;

// How many tickets are counted between two writings of the count.
const KEPT_EACH = 50;

let space = SPACE;
let asked_from = 0;

function askMoreSlowly() {
  space = Math.min(2 * space, MOST_SPACE);
  asked_from = Date.now();
}

async function paced() {
  const now = Date.now();
  asked_from = Math.max(asked_from, now - AT_ONCE * SPACE) + space;
  if (asked_from > now) await new Promise((resolve) => setTimeout(resolve, asked_from - now));
}

// Takes a ticket's sums from the ticket.
export function remember(ticket) {
  const sums = { ticket: ticket.ticket, day: ticket.day, payee: ticket.payee, bonds: ticket.lines.length, total: ticket.total };
  known.set(sums.ticket, sums);
  last = Math.max(last, sums.ticket);
  return sums;
}

// The number of a ticket that was there once, from which the last one is looked for.
export function startFrom(number) {
  last = Math.max(last, number ?? 0);
}

// Takes over what the journal has of this desk's tickets: `paid` of its record, or nothing.
export function knowOwn(paid) {
  for (const { ticket, bonds, total } of paid?.tickets ?? []) own.set(ticket, { day: paid.day, bonds, total: BigInt(total) });
}

async function ticketAt(number, signal) {
  if (known.has(number)) return known.get(number);
  await paced();
  const answer = await askTicket(number, signal, askMoreSlowly);
  if (answer.kind === "ticket") return remember(answer);
  if (isMissing(answer)) return null;
  throw new Unanswered(answer);
}

// The number of the last ticket; 0 if there is none.
export async function lastTicket(signal) {
  if (last > 0 && (await ticketAt(last, signal)) === null) last = 0;
  let low = last;
  let step = 1;
  while ((await ticketAt(low + step, signal)) !== null) {
    low += step;
    step *= 2;
  }
  for (let high = low + step; high - low > 1; ) {
    const middle = Math.floor((low + high) / 2);
    if ((await ticketAt(middle, signal)) === null) high = middle;
    else low = middle;
  }
  last = low;
  return low;
}

// The number of the first ticket of a day or of a later one, of `count` tickets; count + 1 if there is none.
async function firstFrom(day, count, signal) {
  let [low, high] = [0, count + 1];
  while (high - low > 1) {
    const middle = Math.floor((low + high) / 2);
    if ((await ticketAt(middle, signal)).day >= day) high = middle;
    else low = middle;
  }
  return high;
}

// Up to `count` tickets, from number `from` downwards.
export async function ticketsDown(from, count, signal) {
  const found = [];
  for (let number = from; number >= 1 && found.length < count; number -= 1) found.push(await ticketAt(number, signal));
  return found;
}

function added(tally, one) {
  return { ...tally, tickets: tally.tickets + 1, bonds: tally.bonds + one.bonds, total: tally.total + one.total };
}

// How many tickets and bonds were paid on a day, and their sum: { day, through, tickets, bonds, total }, up to the ticket `through`. It continues from `tally`, if that is of the day. `told` is called
// with the number of tickets so far, and now and then `keep` with the count so far, from which a later call continues.
export async function countDay(day, tally, signal, told, keep) {
  const through = await lastTicket(signal);
  const is_of_day = tally !== null && tally.day === day && tally.through <= through;
  let sums = is_of_day ? tally : { day, tickets: 0, bonds: 0, total: 0n };
  for (let number = is_of_day ? tally.through + 1 : await firstFrom(day, through, signal); number <= through; number += 1) {
    const one = own.get(number) ?? (await ticketAt(number, signal));
    if (one.day === day) sums = added(sums, one);
    told(sums.tickets);
    if (number % KEPT_EACH === 0) await keep({ ...sums, through: number });
  }
  return { ...sums, through };
}

async function batchOf(day, signal) {
  const answer = await askBatch(day, signal);
  if (answer.kind === "batch") return answer;
  if (isMissing(answer)) return null;
  throw new Unanswered(answer);
}

// Up to `count` batches, the latest first: each ticket's day, if it is closed, and from its first ticket on the day before. A closed day without tickets isn't found so, unless it is `closed`.
export async function latestBatches(count, closed, signal) {
  const found = [];
  let number = await lastTicket(signal);
  while (number >= 1 && found.length < count) {
    const { day } = await ticketAt(number, signal);
    const batch = await batchOf(day, signal);
    if (batch !== null) found.push(batch);
    number = batch === null ? (await firstFrom(day, number, signal)) - 1 : number - batch.tickets;
  }
  if (closed === null || found.some((batch) => batch.day === closed)) return found;
  const own = await batchOf(closed, signal);
  return [...found, ...(own === null ? [] : [own])].sort((one, other) => (one.day < other.day ? 1 : -1)).slice(0, count);
}

// The tickets of a batch, in their order. `told` is called with the number of tickets so far.
export async function ticketsOf(batch, signal, told) {
  const found = [];
  const first = batch.tickets === 0 ? 1 : await firstFrom(batch.day, await lastTicket(signal), signal);
  for (let number = first; number < first + batch.tickets; number += 1) {
    found.push(await ticketAt(number, signal));
    told(found.length);
  }
  return found;
}

// The numbers of the tickets of a span of days, from `first` to `last`; there are none if `last` is less than `first`.
export async function numbersBetween(from, to, signal) {
  const count = await lastTicket(signal);
  const first = await firstFrom(from, count, signal);
  return { first, last: (await firstFrom(dayAfter(to), count, signal)) - 1 };
}

// The tickets of these numbers with their lines, those of `payee` alone if that isn't null. `told` is called with how many numbers are done, of how many.
export async function wholeTickets(numbers, payee, signal, told) {
  const found = [];
  for (const [place, number] of numbers.entries()) {
    const is_other = payee !== null && known.has(number) && known.get(number).payee !== payee;
    const ticket = is_other ? null : await wholeTicket(number, signal);
    if (ticket !== null && (payee === null || ticket.payee === payee)) found.push(ticket);
    told(place + 1, numbers.length);
  }
  return found;
}

async function wholeTicket(number, signal) {
  await paced();
  const answer = await askTicket(number, signal);
  if (answer.kind !== "ticket") throw new Unanswered(answer);
  remember(answer);
  return answer;
}
