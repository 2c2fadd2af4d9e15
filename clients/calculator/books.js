// The rates and bonds of the page, and why rows are refused, with the codes, names and order of the counter (docs/STATUSES.md). Books never
// change: an act that is done returns new ones.

import { isAnnouncement, isUnnumbered, periodOf, serialOrder } from "./spelling.js";

const MOST_RATES = 500;

const refusal = (code, name, details = {}) => ({ refusal: { code, name, ...details } });
const sameRates = (one, other) => one.rate === other.rate && one.extension === other.extension;
const sameBond = (one, other) => ["denom", "issued", "owner", "coowner"].every((name) => one[name] === other[name]);
const isSame = (one, other) => one === other || (one !== undefined && other !== undefined && sameBond(one, other));
const areSameRates = (one, other) => one.size === other.size && [...one].every(([from, terms]) => other.has(from) && sameRates(terms, other.get(from)));

export const NO_BOOKS = { rates: new Map(), bonds: new Map() };

export function termsOf(rates, issued) {
  return rates.get(periodOf(issued));
}

export function sortedBonds(bonds) {
  return [...bonds.values()].sort((one, other) => serialOrder(one.serial) - serialOrder(other.serial));
}

// The first row whose month has other rates in an earlier row.
function conflictOf(rows) {
  const known = new Map();
  for (const row of rows) {
    const held = known.get(row.from);
    if (held !== undefined && !sameRates(held, row)) return row;
    known.set(row.from, row);
  }
  return undefined;
}

function rateRefusal(rows) {
  if (rows.length === 0) return refusal(11, "Empty");
  if (rows.length > MOST_RATES) return refusal(12, "TooMany");
  const unannounced = rows.find((row) => !isAnnouncement(row.from));
  if (unannounced !== undefined) return refusal(20, "NotAnnouncementMonth", { month: unannounced.from, row: unannounced.row });
  const conflict = conflictOf(rows);
  return conflict === undefined ? null : refusal(21, "RateConflict", { month: conflict.from, row: conflict.row });
}

function unratedOf(bonds, rates) {
  const unrated = sortedBonds(bonds).find((bond) => termsOf(rates, bond.issued) === undefined);
  return unrated === undefined ? null : refusal(30, "NoRate", { serial: unrated.serial, month: unrated.issued });
}

/**
 * Adds the rates of a file. A month that the books have takes the file's rates; with `alone` the file's rates are the only ones.
 * @returns {{refusal?: any, books?: any, added?: number}}
 */
export function withRates(books, rows, alone) {
  const refused = rateRefusal(rows);
  if (refused !== null) return refused;
  const added = rows.map((row) => [row.from, { rate: row.rate, extension: row.extension }]);
  const rates = new Map([...(alone ? [] : books.rates), ...added].sort((one, other) => one[0] - other[0]));
  return unratedOf(books.bonds, rates) ?? { books: { ...books, rates }, added: rows.length };
}

function repeatedOf(rows) {
  const known = new Set();
  return rows.find((row) => known.has(row.serial) || !known.add(row.serial));
}

const named = (code, name, row, details = {}) => refusal(code, name, { serial: row.serial, row: row.row, ...details });

function bondRefusal(books, rows) {
  if (rows.length === 0) return refusal(11, "Empty");
  const repeated = repeatedOf(rows);
  if (repeated !== undefined) return named(13, "Repeated", repeated);
  const own = rows.find((row) => row.coowner === row.owner);
  if (own !== undefined) return named(14, "SameCoowner", own);
  const unrated = rows.find((row) => termsOf(books.rates, row.issued) === undefined);
  if (unrated !== undefined) return named(30, "NoRate", unrated, { month: unrated.issued });
  const other = rows.find((row) => books.bonds.has(row.serial) && !sameBond(books.bonds.get(row.serial), row));
  return other === undefined ? null : named(31, "SerialConflict", other);
}

const lastNumber = (serials) => serials.filter(isUnnumbered).reduce((last, serial) => Math.max(last, Number(serial.slice(1))), 0);

// Rows with a name for every bond without a serial number: the next free one of #1, #2 ... A name that another bond has is replaced likewise.
function numbered(bonds, rows) {
  let last = lastNumber([...bonds.keys(), ...rows.map((row) => row.serial ?? "")]);
  const named = new Set();
  const is_taken = (row) => isUnnumbered(row.serial) && (named.has(row.serial) || (bonds.has(row.serial) && !sameBond(bonds.get(row.serial), row)));
  return rows.map((row) => {
    const serial = row.serial === null || is_taken(row) ? `#${(last += 1)}` : row.serial;
    if (isUnnumbered(serial)) named.add(serial);
    return { ...row, serial };
  });
}

/**
 * Parts the rows of a list into those that `withBonds` takes and those that it refuses, each with its refusal.
 * @returns {{good: any[], refused: any[]}}
 */
export function partedBonds(books, rows) {
  const known = new Set();
  const [good, refused] = [[], []];
  for (const row of rows) {
    const is_named = row.serial !== null && !isUnnumbered(row.serial);
    const one = is_named && known.has(row.serial) ? named(13, "Repeated", row) : refusalOf(books, row, is_named);
    if (one === null) good.push(row);
    else refused.push(one.refusal);
    if (is_named && one === null) known.add(row.serial);
  }
  return { good, refused };
}

function refusalOf(books, row, is_named) {
  if (row.coowner === row.owner) return named(14, "SameCoowner", row);
  if (termsOf(books.rates, row.issued) === undefined) return named(30, "NoRate", row, { month: row.issued });
  const held = is_named ? books.bonds.get(row.serial) : undefined;
  return held !== undefined && !sameBond(held, row) ? named(31, "SerialConflict", row) : null;
}

// Adds bonds, all or none. Returns them as `rows`, and counts those that are new and those that the books have already.
export function withBonds(books, read) {
  const rows = numbered(books.bonds, read);
  const refused = bondRefusal(books, rows);
  if (refused !== null) return refused;
  const bonds = new Map(books.bonds);
  for (const { serial, denom, issued, owner, coowner } of rows) bonds.set(serial, { serial, denom, issued, owner, coowner });
  const count = bonds.size - books.bonds.size;
  return { books: { ...books, bonds }, rows, added: count, same: rows.length - count };
}

// What `own` changed of the bonds of `base`, done to those of `other`: what the two changed differently is refused.
function mergedBonds(base, own, other) {
  const bonds = new Map(other);
  for (const serial of new Set([...base.keys(), ...own.keys()])) {
    const [before, mine, theirs] = [base, own, other].map((one) => one.get(serial));
    if (isSame(before, mine)) continue;
    const is_taken = !isSame(before, theirs) && !isSame(mine, theirs);
    if (is_taken && !(before === undefined && isUnnumbered(serial))) return refusal(31, "SerialConflict", { serial });
    const name = is_taken ? `#${lastNumber([...bonds.keys(), ...own.keys()]) + 1}` : serial;
    if (mine === undefined) bonds.delete(serial);
    else bonds.set(name, { ...mine, serial: name });
  }
  return { bonds };
}

function mergedRates(base, own, other) {
  if (areSameRates(base, own)) return other;
  return areSameRates(base, other) || areSameRates(own, other) ? own : null;
}

// The books with the changes that two tabs made to `base`. A bond or the rates that both changed differently are refused.
export function mergedBooks(base, own, other) {
  const rates = mergedRates(base.rates, own.rates, other.rates);
  if (rates === null) return refusal(21, "RateConflict", { month: [...own.rates.keys()][0] });
  const { bonds, refusal: refused } = mergedBonds(base.bonds, own.bonds, other.bonds);
  if (refused !== undefined) return { refusal: refused };
  const unrated = unratedOf(bonds, rates);
  return unrated ?? { books: { rates, bonds } };
}

export function withoutBond(books, serial) {
  const bonds = new Map(books.bonds);
  bonds.delete(serial);
  return { ...books, bonds };
}
