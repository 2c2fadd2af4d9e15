// Reads bonds that were pasted: columns of a spreadsheet, which tabs part, or lines with semicolons, commas or spaces. A line of headings names the
// columns; of those that it doesn't name, the cells tell which column is which. The spellings are those of loose.js. Lines that are no bonds, as titles and totals,
// are left out, and named.

import { records } from "./csv.js";
import { isNoSerial, looseDenom, looseIssue, looseSerial, looseSeries, plain } from "./loose.js";
import { readCustomer } from "./spelling.js";
import { atOnce } from "./turns.js";

const BAD_VALUE = 72;
const HEADINGS = {
  serial: /^(?:bond )?(?:serial)?(?: ?(?:number|numbers|no|nr|num|id))?$/,
  series: /^(?:bond )?(?:series|type)$/,
  denom: /^(?:bond )?(?:denom|denoms|denomination|denominations|face|face value|face amount|par|par value|amount)$/,
  issued: /^(?:bond )?(?:issued|issue|issued on|issued in|issue ?date|issue month|date issued|month issued|date of issue|month of issue)$/,
  owner: /^(?:owner|customer|owner number|customer number)$/,
  coowner: /^co-?owner(?: number)?$/,
};
// Words of headings over what isn't read, though its cells look like denominations or issue months.
const OTHERS = /price|cost|paid|interest|rate|value|worth|matur|final|next|accrual|redeem|cash/i;
const TOTAL = /^(?:sub-?|grand |in )?(?:total|totals|sum|all)\b/i;

// By column: the value of a cell, or null. `undefined` is an empty cell that may be empty.
const READERS = {
  serial: (text) => (isNoSerial(text) ? undefined : looseSerial(text)),
  series: (text) => (text === "" ? undefined : looseSeries(text)),
  denom: looseDenom,
  issued: looseIssue,
  owner: (text) => (text === "" ? undefined : readCustomer(text)),
  coowner: (text) => (text === "" ? undefined : readCustomer(text)),
};
const REMEMBERED = 10_000;

// A reader that remembers: a list has few denominations and issue months.
function remembering(read) {
  const known = new Map();
  return (text) => {
    if (known.has(text)) return known.get(text);
    const value = read(text);
    if (known.size < REMEMBERED) known.set(text, value);
    return value;
  };
}

for (const column of ["series", "denom", "issued", "owner", "coowner"]) READERS[column] = remembering(READERS[column]);

// Which column a cell may be of, if no heading says so: a note such as P5 isn't a serial number without its EE, nor a number without a sign a month.
const GUESSES = {
  ...READERS,
  serial: (text) => (isNoSerial(text) || /E\W*E\W*$/i.test(text) ? READERS.serial(text) : null),
  issued: (text) => (/^[0-9]+$/.test(text) ? null : READERS.issued(text)),
};
const has = (column) => (text) => (GUESSES[column](text ?? "") ?? null) !== null;

// A comma within 1,000 or May 1, 2010 parts no cells.
function delimiterOf(text) {
  if (text.includes("\t")) return "\t";
  if (text.includes(";")) return ";";
  const without = text.replace(/(?<![-0-9/:.'\u2019])[1-9][0-9]{0,2}(?:,[0-9]{3})+(?![0-9])|[a-z]{3,9}\.?(?: [0-9]{1,2})?, ?[0-9]{4}(?![0-9])|day, /gi, "");
  return without.includes(",") ? "," : null;
}

// A cell of a line whose cells spaces part: a serial number, a month by its name, dollars, or a word.
const CELL = /[a-z][- ]?[0-9][0-9,]*[- ]?ee\b|[a-z]{3,9}\.?,? (?:[0-9]{1,2}, ?)?[0-9]{4}\b|[0-9]{1,2} [a-z]{3,9} [0-9]{4}\b|\$ ?[0-9][0-9,.]*|[^ ]+/gi;

function split(text) {
  const delimiter = delimiterOf(text);
  const table = delimiter === null ? text.split(/\r\n|\r|\n/).map((line) => plain(line).match(CELL) ?? []) : records(new TextEncoder().encode(text), delimiter.charCodeAt(0));
  return table.map((cells, place) => ({ row: place + 1, cells: cells.map((cell) => plain(cell ?? "\ufffd")) })).filter(({ cells }) => cells.some((cell) => cell !== ""));
}

function columnOf(heading) {
  const text = plain(heading.toLowerCase().replace(/[^a-z\- ]/g, " "));
  return text === "" || text === "bond" ? undefined : Object.keys(HEADINGS).find((column) => HEADINGS[column].test(text));
}

// The columns that a line names, each once. An amount is the denomination only if no other heading is.
function namedBy({ cells }) {
  const columns = cells.map(columnOf);
  const placeOfName = (column) => {
    const places = [...columns.keys()].filter((place) => columns[place] === column);
    return places.find((place) => !/^amount$/i.test(cells[place])) ?? places[0];
  };
  return columns.map((column, place) => (column !== undefined && placeOfName(column) === place ? column : undefined));
}

const readsAs = ({ cells }, column) => cells.some(has(column));

// The place of the line of headings, or -1: the first one that names denomination and issue month, or else one before all bonds that names one of them.
function topOf(table) {
  const names = (line, column) => namedBy(line).includes(column);
  const whole = table.findIndex((line) => names(line, "denom") && names(line, "issued"));
  if (whole >= 0) return whole;
  const bond = table.findIndex((line) => readsAs(line, "denom") && readsAs(line, "issued"));
  const isHalf = (line) => filledOf(line).length > 1 && !readsAs(line, "denom") && !readsAs(line, "issued") && (names(line, "denom") || names(line, "issued"));
  return table.slice(0, Math.max(bond, 0)).findIndex(isHalf);
}

const filledOf = ({ cells }) => cells.filter((cell) => cell !== "");
const isAmount = (cell) => /^[-$0-9., ]+$/.test(cell);

// Whether a line is no bond: a total, a title, a note, or sums under the last bond.
function isOther(line, before, is_last) {
  const filled = filledOf(line);
  if (TOTAL.test(filled[0])) return true;
  if (filled.some((cell) => has("serial")(cell) || has("issued")(cell))) return false;
  const is_sum = is_last && before !== undefined && filled.length < filledOf(before).length && filled.every(isAmount);
  return is_sum || filled.length < 2 || !filled.some((cell) => /[0-9]/.test(cell));
}

// By column: which of two is the one. A maturity comes after the issue month, and a price is half of the denomination.
const SIGNS = { issued: 1, denom: -1 };

// The place among `free` in which half the cells read as a column. Of several it is the one with the earlier months or the larger amounts, in the lines
// in which both read.
function placeOf(column, lines, free) {
  const valueAt = ({ cells }, place) => GUESSES[column](cells[place] ?? "") ?? null;
  const isFull = (place) => 2 * lines.filter((line) => valueAt(line, place) !== null).length >= Math.max(1, lines.length);
  const difference = (one, other) => {
    const pairs = lines.map((line) => [valueAt(line, one), valueAt(line, other)]).filter((pair) => !pair.includes(null));
    return pairs.reduce((sum, [mine, others]) => sum + mine - others, 0);
  };
  const better = (best, place) => (column in SIGNS && SIGNS[column] * difference(place, best) < 0 ? place : best);
  const found = free.filter(isFull);
  return found.length === 0 ? undefined : found.reduce(better);
}

// The columns of lines: those that headings name, and of the others what their cells read as, first those whose heading names nothing else.
function completed(headings, lines) {
  const named = namedBy({ cells: headings });
  const width = Math.max(headings.length, ...lines.slice(0, 1000).map(({ cells }) => cells.length));
  const columns = Array.from({ length: width }, (_, place) => named[place]);
  const free = () => [...columns.keys()].filter((place) => columns[place] === undefined);
  const own = () => free().filter((place) => !OTHERS.test(headings[place] ?? ""));
  const take = (column, place) => {
    if (place !== undefined && !columns.includes(column)) columns[place] = column;
  };
  for (const column of ["serial", "series", "issued", "denom"]) take(column, placeOf(column, lines, own()) ?? placeOf(column, lines, free()));
  // What isn't found so is the first one left, so that a fault names it.
  for (const column of ["issued", "denom"]) take(column, own().find((place) => place > 0 || columns.includes("serial") || width < 3));
  return headings.length > 0 ? columns : withSerialsAndOwners(columns, lines);
}

// Whether there are customer numbers at a place, and not the bonds' prices.
function areOwners(place, denom, lines) {
  const owned = lines.filter(({ cells }) => has("owner")(cells[place]));
  return owned.some(({ cells }) => Number(cells[place]) !== Math.round((READERS.denom(cells[denom] ?? "") ?? 0) / 2));
}

// Without headings: misspelled serial numbers come first, and owners after the other columns.
function withSerialsAndOwners(guessed, lines) {
  const columns = [...guessed];
  const first = Math.min(columns.indexOf("denom"), columns.indexOf("issued"));
  const isWord = (place) => lines.some(({ cells }) => !/^(?:USD)?[-$0-9., ]*(?:USD)?$/i.test(cells[place] ?? "") && !has("issued")(cells[place]));
  const place = columns.findIndex((column, at) => column === undefined && at < first && isWord(at));
  if (!columns.includes("serial") && place >= 0) columns[place] = "serial";
  const after = 1 + Math.max(...["serial", "denom", "issued"].map((column) => columns.indexOf(column)));
  if (columns.length > after && areOwners(after, columns.indexOf("denom"), lines)) columns.splice(after, 2, "owner", ...(columns.length > after + 1 ? ["coowner"] : []));
  return columns;
}

// The columns without those of owners in which no cell is a customer number, as those with names.
function withoutNames(columns, lines) {
  const isUseful = (column, place) => !["owner", "coowner"].includes(column) || lines.some(({ cells }) => has(column)(cells[place])) || lines.every(({ cells }) => (cells[place] ?? "") === "");
  return columns.map((column, place) => (isUseful(column, place) ? column : undefined));
}

// What the page writes above lines whose columns no headings name. The names of others mean nothing.
const NAMES = { serial: "Serial", series: "Series", denom: "Denomination", issued: "Issued", owner: "Owner", coowner: "Coowner" };

const quoted = (cell) => (/["\t\n]/.test(cell) ? `"${cell.replaceAll('"', '""')}"` : cell);
const joined = (cells) => `${cells.map(quoted).join("\t")}\n`;

function readLine(columns, { row, cells }, owner) {
  const values = { row, owner, coowner: undefined, serial: null };
  for (const column of ["serial", "series", "denom", "issued", "owner", "coowner"]) {
    const place = columns.indexOf(column);
    if (place < 0 && column !== "denom" && column !== "issued") continue;
    const text = cells[place] ?? "";
    const value = READERS[column](text);
    if (value === null) return { fault: { row, code: BAD_VALUE, column, text } };
    if (value !== undefined) values[column] = value;
  }
  return { values };
}

/**
 * Reads pasted text, and yields how far it is. Returns `rows` and `faults` as the readers of files do, and how it was understood: `good` (the bonds without
 * a fault), `heading` (a row or null), `ignored` (the headings or numbers of columns that aren't read), and `left` (the lines that are no bonds); and `table`,
 * `top` and `columns`, for `cellsOf`, `mended` and `leftOver`. A bond without owner takes `owner`.
 * @returns {Generator<number, any>}
 */
export function* readingPasted(text, owner) {
  yield 0;
  const table = split(text);
  yield 0.3;
  const top = topOf(table);
  const rest = table.slice(top + 1);
  const isLeft = (line, place) => isOther(line, rest[place - 1], place === rest.length - 1);
  const lines = rest.filter((line, place) => !isLeft(line, place));
  yield 0.5;
  const columns = withoutNames(completed(top < 0 ? [] : table[top].cells, lines), lines);
  const read = [];
  for (const line of lines) {
    if (read.length % 500 === 0) yield 0.7 + (0.3 * read.length) / lines.length;
    read.push(readLine(columns, line, owner));
  }
  const faults = read.filter((one) => one.fault !== undefined).map((one) => one.fault);
  const isIgnored = (place) => columns[place] === undefined && lines.some(({ cells }) => (cells[place] ?? "") !== "");
  const ignored = [...columns.keys()].filter(isIgnored).map((place) => (top < 0 ? String(place + 1) : table[top].cells[place] || String(place + 1)));
  const left = [...table.slice(0, Math.max(top, 0)), ...rest.filter(isLeft)].map(({ row, cells }) => ({ row, text: cells.filter((cell) => cell !== "").join(" ") }));
  const good = read.filter((one) => one.fault === undefined).map((one) => one.values);
  return { rows: faults.length > 0 ? [] : good, good, faults, heading: top < 0 ? null : table[top].row, ignored, left, table, top, columns };
}

/** Reads pasted text at once. */
export function readPasted(text, owner) {
  return atOnce(readingPasted(text, owner));
}

/** The texts of the columns that a row is read by. */
export function cellsOf({ table, columns }, row) {
  const { cells } = table.find((line) => line.row === row);
  return Object.keys(NAMES).filter((column) => columns.includes(column)).map((column) => ({ column, text: cells[columns.indexOf(column)] ?? "" }));
}

/** The whole text, with another text in a column of a row. */
export function mended({ table, columns }, row, column, text) {
  const place = columns.indexOf(column);
  const changed = (cells) => Array.from({ length: Math.max(cells.length, place + 1) }, (_, at) => (at === place ? text : cells[at] ?? ""));
  return table.map((line) => joined(line.row === row ? changed(line.cells) : line.cells)).join("");
}

/** The text of these rows alone, below a line that names their columns. */
export function leftOver({ table, top, columns }, rows) {
  const names = top < 0 ? columns.map((column) => NAMES[column] ?? "Other") : table[top].cells;
  return [names, ...table.filter((line) => rows.has(line.row)).map(({ cells }) => cells)].map(joined).join("");
}
