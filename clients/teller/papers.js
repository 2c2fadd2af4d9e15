// Tickets and batches as they are shown, and as they are printed: on sheets of a set number of rows, so that each sheet has its own head and "page x of y", in any browser.

import * as bank from "./bank.js";
import { element } from "./elements.js";
import { button } from "./forms.js";
import { csvOf } from "./interest.js";
import { serverTime } from "./messages.js";
import { detailsOf } from "./receipts.js";
import { saveText } from "./saving.js";
import { amountInWords, dayInWords, INTEREST, moneyInWords, numberInWords, PAPER, serverTimeInWords } from "./words.js";

// Rows of a table that a sheet of Letter or A4 has room for; and how many rows the head of the first sheet and the end of the last one take.
const ROWS = 38;
const HEAD = 12;
const END = 9;
const LEAST = 5;

// How many rows stand on each sheet. If there are several, the last one has five at least, so that its end doesn't stand alone.
export function rowsOfSheets(count) {
  const sizes = [];
  let room = ROWS - HEAD;
  let rest = count;
  while (rest > room - END) {
    const size = Math.min(room, rest - LEAST);
    sizes.push(size);
    rest -= size;
    room = ROWS;
  }
  return [...sizes, rest];
}

function pairs(facts) {
  return facts.filter(([, value]) => value !== null).flatMap(([name, value]) => [element("dt", {}, name), element("dd", {}, value)]);
}

// A row of a paper's table.
function tableRow(cells, { columns, name_place, money }) {
  const cell = (text, place) => {
    if (place === name_place) return element("th", { scope: "row" }, text);
    return element("td", { "data-name": columns[place], ...(money.includes(place) ? { class: "money" } : {}) }, text);
  };
  return element("tr", {}, ...cells.map(cell));
}

function headRow({ columns, money }) {
  return element("thead", {}, element("tr", {}, ...columns.map((name, place) => element("th", { scope: "col", ...(money.includes(place) ? { class: "money" } : {}) }, name))));
}

// `paper` is what a ticket and a batch have in common: the line above its title (`series`, or null), title, running head, facts, what it says of what it lacks (`lacks`, or null), caption, the table's
// class, its columns, rows and total, which cells of a row are `money` and which one names it, the lines to sign, whether it is a copy, and its
// other buttons.
function printedSheets(paper) {
  const sizes = rowsOfSheets(paper.rows.length);
  let done = 0;
  return sizes.map((size, place) => {
    const rows = paper.rows.slice(done, (done += size));
    const is_last = place === sizes.length - 1;
    const total = is_last && paper.total !== null ? [tableRow(paper.total, paper)] : [];
    const table = element("table", { class: paper.table }, headRow(paper), element("tbody", {}, ...rows.map((row) => tableRow(row, paper)), ...total));
    if (total.length > 0) table.querySelector("tbody tr:last-child").className = "total";
    return element(
      "section",
      { class: "leaf" },
      runningHead(paper, place + 1, sizes.length),
      ...(place === 0 ? headOf(paper) : []),
      ...(rows.length + total.length > 0 ? [table] : []),
      ...(is_last ? [endOf(paper)] : []),
    );
  });
}

function seriesOf(paper) {
  return paper.series === null ? [] : [element("p", { class: "series" }, paper.series)];
}

function lackOf(paper) {
  return paper.lacks === null ? [] : [element("p", { class: "lacks" }, paper.lacks)];
}

function headOf(paper) {
  return [...seriesOf(paper), element("p", { class: "title" }, paper.title), element("dl", {}, ...pairs(paper.printed_facts)), ...lackOf(paper)];
}

function runningHead(paper, page, pages) {
  const copy = paper.is_copy ? [element("strong", { class: "copy" }, PAPER.copy)] : [];
  return element("p", { class: "running" }, element("span", {}, paper.running), ...copy, element("span", {}, PAPER.page(page, pages)));
}

function endOf(paper) {
  const amount = element("p", { class: "amount" }, `${PAPER.amount}: `, element("strong", {}, paper.amount));
  const lines = paper.signed.map((name) => element("p", { class: "signed" }, name));
  return element("div", { class: "end" }, amount, element("div", { class: "lines-to-sign" }, ...lines));
}

function screenTable(paper) {
  if (paper.rows.length === 0) return [];
  const total = paper.total === null ? [] : [element("tfoot", {}, tableRow(paper.total, paper))];
  const rows = element("tbody", {}, ...paper.rows.map((row) => tableRow(row, paper)));
  return [element("table", { class: paper.table }, element("caption", {}, paper.caption), headRow(paper), rows, ...total)];
}

// What is shown of a paper, and, for the printer alone, its sheets. `printing` is called by its button.
function shownPaper(paper, id, printing, ...more) {
  const title = element("h2", { id, tabindex: "-1" }, paper.title, ...(paper.is_copy ? [" ", element("span", { class: "badge" }, PAPER.copy)] : []));
  const help = paper.is_copy ? [element("p", { class: "help" }, PAPER.copy_help)] : [];
  const buttons = element("p", { class: "buttons" }, button(PAPER.print, printing, { class: paper.is_copy ? "plain print" : "print", id: `${id}-print` }), ...paper.buttons);
  const shown = element("article", { class: "paper", "aria-labelledby": id }, title, ...seriesOf(paper), element("dl", {}, ...pairs(paper.facts)), ...lackOf(paper), ...screenTable(paper), ...more, ...help, buttons);
  return [shown, element("div", { class: "printed" }, ...printedSheets(paper))];
}

const timeOf = (moment) => (moment === null ? "" : serverTimeInWords(moment));

// The lines on the bank, and on the branch that has the desk.
function bankOf(desk) {
  const { BANK = "", BRANCHES = [] } = bank;
  const branch = BRANCHES.find(({ from, to }) => desk >= from && desk <= to);
  return [[PAPER.bank, BANK], [PAPER.branch, branch?.name ?? ""]];
}

// The lines on who paid: `own` is what this desk's journal or its receipts have of the ticket, or null; `app` knows the desk and the user.
function originOf(app, own, is_copy) {
  const { desk } = app.record;
  const payer = own === null ? [] : [[PAPER.desk, String(desk)], [PAPER.teller, own.teller ?? ""], [PAPER.time, timeOf(own.at)], [PAPER.request, PAPER.request_number(desk, own.number)]];
  const printed = is_copy ? [[PAPER.printed, printedBy(app)]] : [];
  return [...bankOf(desk), ...payer, ...printed];
}

function printedBy(app) {
  return [timeOf(serverTime()), app.user, `${PAPER.desk} ${app.record.desk}`].filter((one) => one).join(", ");
}

// The table of a ticket: each bond with what the receipt has of it. Without one there are serial numbers and values alone, and the paper says so.
function linesOf(ticket, receipt) {
  const details = detailsOf(receipt);
  if (details === null) {
    const rows = ticket.lines.map((line, place) => [String(place + 1), line.serial, moneyInWords(line.cents)]);
    return { lacks: PAPER.lacks, table: "lines", columns: PAPER.columns, money: [2], rows, total: ["", PAPER.total, moneyInWords(ticket.total)] };
  }
  const rows = details.bonds.map((bond, place) => [String(place + 1), bond.serial, ...PAPER.bond(bond.denom, bond.issued), ...[bond.price, bond.interest, bond.value].map(moneyInWords)]);
  const total = ["", PAPER.total, "", "", ...[details.price, details.interest, details.value].map(moneyInWords)];
  return { lacks: null, table: "lines receipt", columns: PAPER.receipt_columns, money: [2, 4, 5, 6], rows, total };
}

// The interest of a ticket as a file, if it is known.
function interestButtons(ticket, receipt) {
  const details = detailsOf(receipt);
  return details === null ? [] : [button(INTEREST.save, () => saveText(`interest-ticket-${ticket.ticket}.csv`, csvOf([{ ticket, details }])), { class: "plain save" })];
}

// A ticket, with what this browser keeps of its payment (`receipt`, or null). `next` leads to the next customer. It is a copy if this desk has printed it before, or didn't pay it.
export function ticketPaper(app, ticket, receipt, entry, printing, next) {
  const is_copy = entry === null || entry.printed;
  const facts = [[PAPER.day, dayInWords(ticket.day)], [PAPER.payee, PAPER.customer(ticket.payee)], [PAPER.bonds, numberInWords(ticket.lines.length)], [PAPER.sum, moneyInWords(ticket.total)]];
  const paper = {
    series: PAPER.series,
    title: PAPER.ticket(ticket.ticket),
    running: PAPER.sheet(PAPER.ticket(ticket.ticket), ticket.day, ticket.payee),
    facts,
    printed_facts: [...originOf(app, entry ?? receipt, is_copy), ...facts.slice(0, 3)],
    caption: PAPER.lines(ticket.ticket),
    ...linesOf(ticket, receipt),
    name_place: 1,
    amount: amountInWords(ticket.total),
    signed: [PAPER.received, PAPER.signature],
    is_copy,
    buttons: [button(PAPER.next, next, { id: "next-customer" }), ...interestButtons(ticket, receipt)],
  };
  return shownPaper(paper, "paper-title", printing);
}

// A batch, with the list of its tickets once that was read: `tickets` is null until then. `more` stands under the list.
export function batchPaper(app, batch, tickets, printing, ...more) {
  const facts = [[PAPER.tickets_paid, numberInWords(batch.tickets)], [PAPER.bonds_paid, numberInWords(batch.bonds)], [PAPER.sum_paid, moneyInWords(batch.total)]];
  const paper = {
    series: null,
    title: PAPER.batch(batch.day),
    running: PAPER.batch(batch.day),
    facts,
    printed_facts: [...bankOf(app.record.desk), ...facts, [PAPER.printed, printedBy(app)]],
    lacks: null,
    caption: PAPER.batch_lines(batch.day),
    table: "lines",
    columns: PAPER.batch_columns,
    money: [3],
    rows: (tickets ?? []).map((one) => [numberInWords(one.ticket), PAPER.customer(one.payee), numberInWords(one.bonds), moneyInWords(one.total)]),
    total: tickets === null ? null : [PAPER.total, "", numberInWords(batch.bonds), moneyInWords(batch.total)],
    name_place: 0,
    amount: amountInWords(batch.total),
    signed: [PAPER.settled, PAPER.signature],
    is_copy: false,
    buttons: [],
  };
  return shownPaper(paper, "batch-title", printing, ...more);
}
