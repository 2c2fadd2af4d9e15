// The interest of payments, as rows of a CSV file: what the counter has of each ticket, with what this browser keeps of those that it paid. The counter tells no interest of a paid bond, so what
// another browser paid has empty columns.

import { numbersBetween, wholeTickets } from "./latest.js";
import { detailsOf, isOf } from "./receipts.js";
import { printMoney } from "./spelling.js";
import { INTEREST } from "./words.js";

// Up to this many tickets of a span are read. Of a longer span only those of which this browser has a record are.
const MOST_TICKETS = 1000;

function upTo(first, last) {
  return Array.from({ length: Math.max(0, last - first + 1) }, (_, place) => first + place);
}

// Numbers as { first, last } of each run.
export function runsOf(numbers) {
  const runs = [];
  for (const number of numbers) {
    if (runs.at(-1)?.last === number - 1) runs.at(-1).last = number;
    else runs.push({ first: number, last: number });
  }
  return runs;
}

// The payments of a span of days, to `payee` alone if that isn't null: { kind: "interest", paid, unread }. `paid` has of each ticket the `ticket` and its `details`, which are null if this browser
// doesn't know them. `unread` has the runs of tickets that weren't read.
export async function interestBetween({ from, to, payee }, receipts, signal, told) {
  const { first, last } = await numbersBetween(from, to, signal);
  const records = first > last ? [] : await receipts.between(first, last);
  const is_short = last - first < MOST_TICKETS;
  const kept = new Set(records.map((record) => record.ticket));
  const numbers = is_short ? upTo(first, last) : [...new Set(records.filter((record) => payee === null || record.payee === payee).map((record) => record.ticket))];
  const tickets = await wholeTickets(numbers, payee, signal, told);
  const paid = tickets.map((ticket) => ({ ticket, details: detailsOf(records.find((record) => isOf(record, ticket)) ?? null) }));
  return { kind: "interest", paid, unread: is_short ? [] : runsOf(upTo(first, last).filter((number) => !kept.has(number))) };
}

// The sums of the payments that are known: how many tickets and bonds, price, interest and value.
export function sumsOf(paid) {
  const known = paid.map((one) => one.details).filter((details) => details !== null);
  const sum = (name) => known.reduce((cents, details) => cents + details[name], 0n);
  return { tickets: known.length, bonds: known.reduce((count, { bonds }) => count + bonds.length, 0), price: sum("price"), interest: sum("interest"), value: sum("value") };
}

function rowsOf({ ticket, details }) {
  return ticket.lines.map(({ serial, cents }, place) => {
    const bond = details?.bonds[place];
    const known = bond === undefined ? ["", "", "", ""] : [bond.denom, bond.issued, printMoney(bond.price), printMoney(bond.interest)];
    return [ticket.day, ticket.ticket, ticket.payee, serial, ...known, printMoney(cents)].join(",");
  });
}

// The text of the file. No cell has a comma, a quote or a line end.
export function csvOf(paid) {
  return `${[INTEREST.csv_columns.join(","), ...paid.flatMap(rowsOf)].join("\n")}\n`;
}
