// The business day: opening it, joining it, what was paid on it so far, closing it.

import { isRightMonth } from "./doubts.js";
import { byId, element, show } from "./elements.js";
import { button, onClick, onSubmit, readFields } from "./forms.js";
import { Unstored } from "./journal.js";
import { countDay, knowOwn } from "./latest.js";
import { listTable, load, stopLoading } from "./lists.js";
import { serverToday } from "./messages.js";
import { notice } from "./notices.js";
import { askBatch, askFirstBatch, isMissing } from "./queries.js";
import { confirmed } from "./question.js";
import { RELEASED } from "./released.js";
import { daysBefore, daysFrom, laterOf, readDay, today } from "./spelling.js";
import { lookUpTicket } from "./view_lookups.js";
import { DAY, ENTER, LOOKUPS, moneyInWords, numberInWords } from "./words.js";

// A day is usually opened within a week of the last closed one, and of today. From the next day on the page asks twice.
const USUAL_DAYS = 7;

// ---- what was paid so far

// The sums of what this desk paid on the open day.
export function deskSums({ paid, day }) {
  const tickets = paid !== null && paid !== undefined && paid.day === day ? paid.tickets : [];
  const total = tickets.reduce((cents, one) => cents + BigInt(one.total), 0n);
  return { tickets: tickets.length, bonds: tickets.reduce((count, one) => count + one.bonds, 0), total };
}

function showDeskTickets(app) {
  const { paid, day } = app.record;
  const tickets = deskSums(app.record).tickets === 0 ? [] : paid.tickets;
  const row = (one) => [button(LOOKUPS.show_ticket(one.ticket), () => lookUpTicket(app, one.ticket)), LOOKUPS.time(one.at), numberInWords(one.bonds), moneyInWords(BigInt(one.total))];
  const table = listTable(LOOKUPS.desk_caption, LOOKUPS.desk_columns, tickets.map(row).reverse());
  byId("desk-tickets").replaceChildren(...(day === null || tickets.length === 0 ? [] : [element("h3", {}, DAY.desk_tickets), table]));
}

export function showDay(app) {
  const { day, last } = app.record;
  show(byId("day-open"), day !== null);
  show(byId("day-closed"), day === null);
  byId("day-name").textContent = day === null ? "" : DAY.name(day);
  byId("desk-sum").textContent = DAY.sums(deskSums(app.record));
  showDeskTickets(app);
  if (day === null || app.record.tally?.day !== day) byId("all-sum").replaceChildren();
  show(byId("day-last"), last !== null && deskSums(app.record).tickets === 0);
  byId("last-ticket").textContent = last === null ? "" : DAY.last(last);
}

// Puts the acts of a supervisor behind what a user who is none may do, and their buttons can't be pressed. If the groups aren't known, they come first.
export function offerActs(groups) {
  const may = groups === null || groups.includes("supervisor");
  const forms = [byId("open-day"), byId("join-day")];
  const [first, second] = may ? forms : forms.toReversed();
  if (first.nextElementSibling !== second) first.after(second);
  first.querySelector("button").classList.remove("plain");
  second.querySelector("button").classList.add("plain");
  for (const act of ["open", "close"]) {
    show(byId(`${act}-barred`), !may);
    byId(`${act}-day`).querySelector("button").disabled = !may;
  }
}

// Counts what all desks paid on the open day, from where the journal left it.
async function counted(app, day, signal, told) {
  const { tally, paid } = app.record;
  knowOwn(paid);
  const keep = (count) => (signal.aborted ? null : keepTally(app, count));
  const found = await countDay(day, tally ? { ...tally, total: BigInt(tally.total) } : null, signal, (count) => told(DAY.counting(count)), keep);
  await keepTally(app, found);
  return { kind: "tally", ...found };
}

async function keepTally(app, tally) {
  try {
    await app.keep({ tally: { ...tally, total: tally.total.toString() } });
  } catch (error) {
    // It can be counted again.
    if (!(error instanceof Unstored)) throw error;
  }
}

async function countAll(app) {
  const { day } = app.record;
  if (day === null) return;
  await load(byId("all-sum"), async (signal, told) => [element("span", {}, DAY.all_sum(await counted(app, day, signal, told), Date.now()))]);
}

// As the view is entered, the day is counted again.
export function enterDay(app) {
  return countAll(app);
}

// ---- opening

// The last day that is closed, as far as this page knows and the batches of the week before `day` tell: { day }, whose day may be null, or an answer that tells neither.
async function lastClosed(known, day, signal) {
  if (known !== null && known >= day) return { day: known };
  const found = await askFirstBatch(daysBefore(day, USUAL_DAYS).filter((one) => one > (known ?? "")), signal);
  if (found === null) return { day: known };
  return found.kind === "batch" ? { day: laterOf(known, found.day) } : found;
}

async function isConfirmed(day, closed) {
  const now = serverToday();
  const is_far = Math.abs(daysFrom(now, day)) > USUAL_DAYS;
  const is_wrong = now < RELEASED;
  const is_unusual = is_far || is_wrong || closed === null || daysFrom(closed, day) > USUAL_DAYS;
  const distances = [DAY.open_line(day, closed, USUAL_DAYS), ...(is_far ? [DAY.today_line(day, now)] : []), ...(is_wrong ? [DAY.clock_line(now)] : [])];
  if (!(await confirmed(DAY.open_title(day), distances, is_unusual ? DAY.continue : DAY.open))) return false;
  return !is_unusual || (await isConfirmedAgain(day, distances));
}

async function isConfirmedAgain(day, distances) {
  const year = day.slice(0, 4);
  return confirmed(DAY.year_title(year), [...distances, DAY.year_line(day), DAY.year_back], DAY.open_in(year));
}

async function open(app, day) {
  const found = await app.lookUp((signal) => lastClosed(app.record.closed ?? null, day, signal));
  if (found.day === undefined) {
    app.tellUnanswered(found);
    return;
  }
  if (found.day !== null) await app.knowClosed(found.day);
  if (await isConfirmed(day, found.day)) await app.act("/day/open", { day });
}

// ---- joining and closing

// A closed day isn't joined: its batch is shown.
async function join(app, day) {
  const answer = await app.lookUp((signal) => askBatch(day, signal));
  if (answer.kind === "batch") {
    await app.knowClosed(day);
    app.showBatch(answer);
    notice("noted", DAY.is_closed_batch(day));
  } else if (isMissing(answer)) {
    if (!(await isRightMonth(day, DAY.join(day)))) return;
    await app.keep({ day });
    notice("done", DAY.joined(day), DAY.joined_help);
    await countAll(app);
  } else {
    app.tellUnanswered(answer);
  }
}

// Asks by the sum of the day, of all desks.
async function close(app) {
  const { day } = app.record;
  stopLoading(byId("all-sum"));
  const tally = await app.lookUp((signal, told) => counted(app, day, signal, told));
  if (tally.kind !== "tally") {
    app.tellUnanswered(tally);
    return;
  }
  byId("all-sum").replaceChildren(element("span", {}, DAY.all_sum(tally, Date.now())));
  if (await confirmed(DAY.close_title(day, tally.total), [DAY.close_sums(tally), DAY.close_line], DAY.close(tally.total))) await app.act("/day/close", { day }, { shown: tally.total.toString() });
}

// Shows the reply to an opening or a closing; returns what the journal then keeps.
export function dayReplied(app, reply) {
  if (reply.kind === "opened") {
    notice("done", DAY.is_open(reply.day), "", ...app.earlier(reply));
    return { day: reply.day };
  }
  app.showBatch(reply);
  const { shown } = reply.request;
  const more = typeof shown === "string" && BigInt(shown) !== reply.total ? DAY.more_paid(BigInt(shown), reply.total) : "";
  notice("done", DAY.is_closed(reply.day), more, ...app.earlier(reply));
  return { day: null, closed: laterOf(app.record.closed, reply.day), tally: null };
}

export function startDayView(app) {
  byId("open-date").value = today();
  byId("join-date").value = today();
  onSubmit(byId("open-day"), async () => {
    const fields = readFields([byId("open-date"), readDay, ENTER.day]);
    if (fields !== null) await open(app, ...fields);
  });
  onSubmit(byId("join-day"), async () => {
    const fields = readFields([byId("join-date"), readDay, ENTER.day]);
    if (fields !== null) await join(app, ...fields);
  });
  onSubmit(byId("close-day"), () => close(app));
  onSubmit(byId("leave-day"), () => app.keep({ day: null }));
  onClick(byId("count-day"), () => countAll(app));
  onClick(byId("last-ticket"), () => lookUpTicket(app, app.record.last));
}
