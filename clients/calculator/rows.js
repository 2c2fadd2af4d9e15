// The rows of the calculator: what the library answers for every bond in a month, as the texts of the eleven columns that the counter's sheet prints.

import { termsOf } from "./books.js";
import { moneyText, monthNumber, monthOf, rateText, serialOrder, sheetMonthText } from "./spelling.js";

export const COLUMNS = ["serial", "series", "denom", "issued", "next", "final", "price", "interest", "rate", "value", "note"];
export const MONEY = ["price", "interest", "value"];
const EXTENDED_FROM = 240;

// A question of the library: a bond in a month.
export function questionOf(rates, bond, month) {
  const { rate, extension } = termsOf(rates, bond.issued);
  return [bond.denom, monthNumber(bond.issued), monthNumber(month), rate, extension];
}

// The rate in force in a month, which the library doesn't name; null under the notes NI and MA.
function rateInForce(rates, bond, month, answer) {
  if (answer.note === "NI" || answer.note === "MA") return null;
  const terms = termsOf(rates, bond.issued);
  return month - bond.issued < EXTENDED_FROM ? terms.rate : terms.extension;
}

const orEmpty = (value, text) => (value === null ? "" : text(value));

// A row without its serial number: bonds of one denomination and issue month share it.
function sharedRow(rates, bond, month, answer) {
  const rate = rateInForce(rates, bond, month, answer);
  const [next, final] = [answer.nextAccrual, answer.finalMaturity].map((text) => (text === null ? null : monthOf(text)));
  const texts = {
    series: "EE",
    denom: String(bond.denom),
    issued: sheetMonthText(bond.issued),
    next: orEmpty(next, sheetMonthText),
    final: orEmpty(final, sheetMonthText),
    price: moneyText(answer.priceCents),
    interest: moneyText(answer.interestCents),
    rate: orEmpty(rate, rateText),
    value: moneyText(answer.valueCents),
    note: answer.note,
  };
  const cents = { price: answer.priceCents, interest: answer.interestCents, value: answer.valueCents };
  const keys = { ...cents, series: 0, denom: bond.denom, issued: bond.issued, next: next ?? -1, final: final ?? -1, rate: rate ?? -1, note: answer.note };
  return { texts, cents, keys };
}

const kindOf = ({ denom, issued }) => issued * 16_384 + denom;

// By kind, which is a denomination and an issue month: the answer for its bonds, by one call of the library, and how many there are. Throws the
// Refused of the first bond that has no answer.
function kindsAt(library, rates, bonds, month) {
  const kinds = new Map();
  for (const bond of bonds) {
    const kind = kindOf(bond);
    const known = kinds.get(kind);
    if (known === undefined) kinds.set(kind, { bond, count: 1, answer: null });
    else known.count += 1;
  }
  const listed = [...kinds.values()];
  const answers = library.rows(listed.map(({ bond }) => questionOf(rates, bond, month)));
  answers.forEach((answer, place) => {
    if (answer instanceof Error) throw Object.assign(answer, { serial: listed[place].bond.serial });
    listed[place].answer = answer;
  });
  return kinds;
}

// The rows of bonds in a month. Throws the Refused of a bond that has no answer.
export function rowsAt(library, rates, bonds, month) {
  const kinds = kindsAt(library, rates, bonds, month);
  for (const one of kinds.values()) one.row = sharedRow(rates, one.bond, month, one.answer);
  return bonds.map((bond) => {
    const { texts, cents, keys } = kinds.get(kindOf(bond)).row;
    return { bond, texts: { serial: bond.serial, ...texts }, cents, keys: { serial: serialOrder(bond.serial), ...keys } };
  });
}

// The sums of price, interest and value of bonds in a month.
export function totalsAt(library, rates, bonds, month) {
  const kinds = [...kindsAt(library, rates, bonds, month).values()];
  const sum = (name) => kinds.reduce((all, { answer, count }) => all + count * answer[`${name}Cents`], 0);
  return Object.fromEntries(MONEY.map((name) => [name, sum(name)]));
}

// The sums of rows.
export function totalsOf(rows) {
  return Object.fromEntries(MONEY.map((name) => [name, rows.reduce((sum, row) => sum + row.cents[name], 0)]));
}

const compared = (one, other) => (one < other ? -1 : Number(one > other));

// Rows in the order of a column; rows that are equal there are in the order of serial numbers.
export function sortedRows(rows, column, is_falling) {
  const sign = is_falling ? -1 : 1;
  return [...rows].sort((one, other) => sign * compared(one.keys[column], other.keys[column]) || one.keys.serial - other.keys.serial);
}

// Rows of which a column's text has the words, that have the note (if it isn't null), and whose bond has the owner (if it isn't null).
export function filteredRows(rows, { words, note, owner }) {
  const typed = words.trim().toUpperCase();
  // Money is looked for as the files have it.
  const wanted = /^\$?[0-9][0-9,.]*$/.test(typed) ? typed.replace(/[$,]/g, "") : typed;
  const has = (row) => wanted === "" || COLUMNS.some((column) => row.texts[column].toUpperCase().includes(wanted));
  return rows.filter((row) => (note === null || row.texts.note === note) && (owner === null || row.bond.owner === owner) && has(row));
}
