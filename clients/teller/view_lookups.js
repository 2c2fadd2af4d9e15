// Tickets and batches: the latest ones, and look-ups of any. A ticket that this desk paid prints once as itself, and from then on as a copy.

import { byId } from "./elements.js";
import { button, onSubmit, readFields } from "./forms.js";
import { latestBatches, lastTicket, remember, ticketsDown, ticketsOf } from "./latest.js";
import { listTable, load } from "./lists.js";
import { notice } from "./notices.js";
import { batchPaper, ticketPaper } from "./papers.js";
import { askBatch, askTicket, isMissing } from "./queries.js";
import { restKeys } from "./scans.js";
import { readDay, readTicketNumber } from "./spelling.js";
import { focusPay } from "./view_pay.js";
import { goTo } from "./views.js";
import { dayInWords, ENTER, LOOKUPS, moneyInWords, numberInWords, PAPER } from "./words.js";

// How many of the latest are listed, and how many more by the button.
const LISTED = 10;

// The ticket that is shown; what this browser keeps of its payment, if it does; what the journal will have of it, if it was paid just now; and what leads to the next customer.
const shown = { ticket: null, receipt: null, entry: null, next: focusPay };

// ---- tickets

// What this desk's journal has of a ticket, or null.
function entryOf(app, number) {
  return app.record.paid?.tickets.find((one) => one.ticket === number) ?? null;
}

function showPaper(app) {
  const { ticket, receipt, entry, next } = shown;
  if (ticket === null) return;
  const had_keyboard = byId("ticket").contains(document.activeElement);
  byId("ticket").replaceChildren(...ticketPaper(app, ticket, receipt, entryOf(app, ticket.ticket) ?? entry, () => printTicket(app), next));
  if (had_keyboard) byId("next-customer").focus();
}

// Writes down that a ticket is printed, if this desk paid it. What is being printed stays as it is until then.
async function markPrinted(app) {
  const entry = shown.ticket === null ? null : entryOf(app, shown.ticket.ticket);
  if (entry === null || entry.printed) return;
  const tickets = app.record.paid.tickets.map((one) => (one.ticket === entry.ticket ? { ...one, printed: true } : one));
  await app.keep({ paid: { ...app.record.paid, tickets } });
}

// The mark is on the disk before the paper is in the printer. So if anything fails in between, the next print is a copy.
async function printTicket(app) {
  const is_stored = shown.entry === null || entryOf(app, shown.ticket.ticket) !== null;
  if (!is_stored) {
    notice("noted", PAPER.not_stored);
    return;
  }
  await markPrinted(app);
  print();
  byId("next-customer").focus();
}

// Shows a ticket. If it was paid just now (`entry`), the keyboard is on Print, and then on the way to the next customer.
export function showTicket(app, ticket, receipt, entry = null, next = focusPay) {
  remember(ticket);
  Object.assign(shown, { ticket, receipt, entry, next });
  goTo("tickets");
  byId("ticket-number").value = String(ticket.ticket);
  showPaper(app);
  focusLater(entry === null ? "paper-title" : "paper-title-print");
  if (entry !== null) restKeys();
}

// After the change of view has put the keyboard on the view's own heading.
function focusLater(id) {
  setTimeout(() => byId(id)?.focus(), 0);
}

export async function lookUpTicket(app, number) {
  const answer = await app.lookUp((signal) => askTicket(number, signal));
  if (answer.kind === "ticket") showTicket(app, answer, await app.receipts.of(answer));
  else if (isMissing(answer)) notice("noted", LOOKUPS.no_ticket(number), LOOKUPS.check_number);
  else app.tellUnanswered(answer);
}

async function ticketList(app, count, signal) {
  const found = await ticketsDown(await lastTicket(signal), count, signal);
  if (found.length === 0) return [LOOKUPS.no_tickets];
  const row = (one) => [button(LOOKUPS.show_ticket(one.ticket), () => lookUpTicket(app, one.ticket)), dayInWords(one.day), LOOKUPS.payee(one.payee), numberInWords(one.bonds), moneyInWords(one.total)];
  const table = listTable(LOOKUPS.tickets_caption, LOOKUPS.ticket_columns, found.map(row));
  return found.at(-1).ticket === 1 ? [table] : [table, button(LOOKUPS.earlier, () => listTickets(app, count + LISTED))];
}

function listTickets(app, count) {
  return load(byId("ticket-list"), (signal) => ticketList(app, count, signal));
}

export function enterTickets(app) {
  return listTickets(app, LISTED);
}

// ---- batches

// Shows a batch at once, and its tickets as they come. It is printed with them.
export async function showBatch(app, batch) {
  goTo("batches");
  byId("batch-day").value = batch.day;
  byId("batch").replaceChildren();
  const printing = () => print();
  const place = byId("batch");
  place.replaceChildren(...batchPaper(app, batch, null, printing));
  /** @type {HTMLButtonElement} */ (place.querySelector(".print")).disabled = batch.tickets > 0;
  focusLater("batch-title");
  const list = document.createElement("div");
  place.querySelector(".paper dl").after(list);
  await load(list, async (signal, told) => {
    const tickets = await ticketsOf(batch, signal, (count) => told(LOOKUPS.reading_tickets(count, batch.tickets)));
    showWhole(app, batch, tickets, list, printing);
    return [];
  });
}

// The batch with its tickets, in place of the one without, unless another was shown meanwhile.
function showWhole(app, batch, tickets, list, printing) {
  if (!list.isConnected) return;
  const is_whole = tickets.reduce((cents, one) => cents + one.total, 0n) === batch.total;
  const had_focus = document.activeElement === byId("batch-title");
  byId("batch").replaceChildren(...batchPaper(app, batch, tickets, printing, ...(is_whole ? [] : [PAPER.other_list])));
  if (had_focus) byId("batch-title").focus();
}

async function lookUpBatch(app, day) {
  const answer = await app.lookUp((signal) => askBatch(day, signal));
  if (answer.kind === "batch") {
    await app.knowClosed(day);
    await showBatch(app, answer);
  } else if (isMissing(answer)) {
    notice("noted", LOOKUPS.no_batch(day));
  } else {
    app.tellUnanswered(answer);
  }
}

async function batchList(app, count, signal) {
  const found = await latestBatches(count, app.record.closed ?? null, signal);
  if (found.length === 0) return [LOOKUPS.no_batches];
  const row = (one) => [button(dayInWords(one.day), () => lookUpBatch(app, one.day)), numberInWords(one.tickets), numberInWords(one.bonds), moneyInWords(one.total)];
  const more = found.length < count ? [] : [button(LOOKUPS.earlier, () => listBatches(app, count + LISTED))];
  const help = document.createElement("p");
  help.className = "help";
  help.textContent = LOOKUPS.some_missing;
  return [listTable(LOOKUPS.batches_caption, LOOKUPS.batch_columns, found.map(row)), help, ...more];
}

function listBatches(app, count) {
  return load(byId("batch-list"), (signal) => batchList(app, count, signal));
}

export function enterBatches(app) {
  return listBatches(app, LISTED);
}

// ---- both

export function startLookUps(app) {
  onSubmit(byId("ask-ticket"), async () => {
    const fields = readFields([byId("ticket-number"), readTicketNumber, ENTER.ticket]);
    if (fields !== null) await lookUpTicket(app, ...fields);
  });
  onSubmit(byId("ask-batch"), async () => {
    const fields = readFields([byId("batch-day"), readDay, ENTER.day]);
    if (fields !== null) await lookUpBatch(app, ...fields);
  });
  // Printing by the browser's own command counts too.
  let marked = Promise.resolve();
  addEventListener("beforeprint", () => {
    if (byId("ticket").checkVisibility()) marked = markPrinted(app);
  });
  addEventListener("afterprint", () => marked.then(() => showPaper(app)));
}
