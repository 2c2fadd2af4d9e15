// The interest that was paid on a day, or to a customer in a span of days, and its CSV file.

import { byId, element } from "./elements.js";
import { button, onSubmit, readFields } from "./forms.js";
import { csvOf, interestBetween, runsOf, sumsOf } from "./interest.js";
import { listTable } from "./lists.js";
import { announce } from "./notices.js";
import { saveText } from "./saving.js";
import { readCustomer, readDay } from "./spelling.js";
import { lookUpTicket } from "./view_lookups.js";
import { followRecords } from "./view_records.js";
import { dayInWords, ENTER, INTEREST, LOOKUPS, moneyInWords, numberInWords, SHEET } from "./words.js";

function ticketTable(app, paid) {
  const row = ({ ticket, details }) => [
    button(LOOKUPS.show_ticket(ticket.ticket), () => lookUpTicket(app, ticket.ticket)),
    dayInWords(ticket.day),
    LOOKUPS.payee(ticket.payee),
    numberInWords(ticket.lines.length),
    moneyInWords(ticket.total),
    details === null ? SHEET.no_value : moneyInWords(details.interest),
  ];
  return listTable(INTEREST.caption, INTEREST.columns, paid.map(row));
}

// What the file has, and each thing that it lacks.
function statements({ paid, unread }) {
  if (paid.length === 0 && unread.length === 0) return [INTEREST.none];
  const unknown = paid.filter(({ details }) => details === null).map(({ ticket }) => ticket);
  const lines = [INTEREST.known(sumsOf(paid))];
  if (unknown.length > 0) lines.push(INTEREST.unknown(unknown.length, runsOf(unknown.map((ticket) => ticket.ticket)), unknown.reduce((cents, ticket) => cents + ticket.total, 0n)));
  if (unread.length > 0) lines.push(INTEREST.unread(unread));
  if (lines.length === 1) lines.push(INTEREST.whole);
  return lines;
}

function showInterest(app, title, name, found) {
  const lines = statements(found);
  const kindOf = (line, place) => (place === 0 ? { class: "main-fact" } : line === INTEREST.whole ? {} : { class: "panel refused" });
  const says = lines.map((line, place) => element("p", kindOf(line, place), line));
  const save = found.paid.length === 0 ? [] : [element("p", { class: "buttons" }, button(INTEREST.save, () => saveText(`${name}.csv`, csvOf(found.paid)), { class: "save" }))];
  const table = found.paid.length === 0 ? [] : [ticketTable(app, found.paid)];
  byId("interest-of").replaceChildren(element("h2", { id: "interest-title", tabindex: "-1" }, title), ...says, ...save, ...table);
  byId("interest-title").focus();
  announce([title, ...lines].join(" "));
}

async function ask(app, span, title, name) {
  const found = await app.lookUp((signal, told) => interestBetween(span, app.receipts, signal, (done, all) => told(LOOKUPS.reading_tickets(done, all))));
  if (found.kind === "interest") showInterest(app, title, name, found);
  else app.tellUnanswered(found);
}

export function startInterest(app) {
  onSubmit(byId("ask-interest-day"), async () => {
    const fields = readFields([byId("interest-day"), readDay, ENTER.day]);
    if (fields === null) return;
    const [day] = fields;
    await ask(app, { from: day, to: day, payee: null }, INTEREST.day_title(day), `interest-${day}`);
  });
  onSubmit(byId("ask-interest-payee"), async () => {
    const last = (text) => lastOf(byId("interest-from").value, text);
    const fields = readFields([byId("interest-payee"), readCustomer, ENTER.customer], [byId("interest-from"), readDay, ENTER.day], [byId("interest-to"), last, ENTER.last_day]);
    if (fields === null) return;
    const [payee, from, to] = fields;
    await ask(app, { from, to, payee }, INTEREST.payee_title(payee, from, to), `interest-customer-${payee}-${from}-to-${to}`);
  });
}

// The last day of a span, which isn't before its first one.
function lastOf(from, text) {
  const day = readDay(text);
  return day !== null && day >= from ? day : null;
}

// As the view is entered, it asks for the open day, and for its year.
export async function enterInterest(app) {
  fillDays(app.record);
  await followRecords(app);
}

function fillDays({ day }) {
  if (day === null || byId("interest-day").value !== "") return;
  byId("interest-day").value = day;
  byId("interest-from").value = `${day.slice(0, 4)}-01-01`;
  byId("interest-to").value = `${day.slice(0, 4)}-12-31`;
}
