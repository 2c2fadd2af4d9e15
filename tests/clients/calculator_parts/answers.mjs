// Answers tasks as the counter would, by the page's own modules: one line of JSON for each line of standard input. `node answers.mjs MODULE.wasm`.
// Bytes come in hexadecimal digits.
import { readFileSync } from "node:fs";
import { createInterface } from "node:readline";
import { dollarsAndCents, load } from "../../../clients/value/ee-value.js";
import { NO_BOOKS, sortedBonds, withBonds, withRates } from "../../../clients/calculator/books.js";
import { faultText, readInventory, readRates, writeInventory } from "../../../clients/calculator/files.js";
import { readPasted } from "../../../clients/calculator/paste.js";
import { filteredRows, rowsAt, totalsOf } from "../../../clients/calculator/rows.js";
import { sheetText } from "../../../clients/calculator/sheet.js";
import { monthText, readMonth } from "../../../clients/calculator/spelling.js";

const library = await load(readFileSync(process.argv[2]));
const bytesOf = (digits) => new Uint8Array(Buffer.from(digits, "hex"));

// A refusal as the counter's JSON: what it names, with keys in order.
function refusalText({ code, name, month, serial }) {
  const named = code === 20 || code === 21 ? { code, month: monthText(month), refused: name } : { code, refused: name, ...(serial === undefined ? {} : { serial }) };
  return JSON.stringify(named);
}

function entered(books, { rows, faults }, enter) {
  if (faults.length > 0) return { books, text: `file: ${faultText(faults[0])}\n` };
  const done = enter(books, rows);
  if (done.refusal !== undefined) return { books, text: `${refusalText(done.refusal)}\n` };
  return { books: done.books, text: JSON.stringify({ new: done.added, same: done.same }) + "\n" };
}

// Of rates the page counts rows; the counter counts those that are new.
function ratesEntered(books, rows) {
  const done = withRates(books, rows, true);
  return done.refusal === undefined ? { ...done, added: done.books.rates.size, same: rows.length - done.books.rates.size } : done;
}

const enterRates = (books, digits) => entered(books, readRates(bytesOf(digits)), ratesEntered);
const enterBonds = (books, digits) => entered(books, readInventory(bytesOf(digits)), withBonds);
const booksOf = (rates) => (rates === undefined ? NO_BOOKS : enterRates(NO_BOOKS, rates).books);

const TASKS = {
  rates: ({ file }) => enterRates(NO_BOOKS, file).text,
  inventory: ({ rates, file }) => enterBonds(booksOf(rates), file).text,
  written: ({ rates, file }) => writeInventory(sortedBonds(enterBonds(booksOf(rates), file).books.bonds)),
  sheet: ({ rates, file, owner, month }) => {
    const { books } = enterBonds(booksOf(rates), file);
    const rows = filteredRows(rowsAt(library, books.rates, sortedBonds(books.bonds), readMonth(month)), { words: "", note: null, owner });
    return sheetText(rows, totalsOf(rows));
  },
  pasted: ({ text }) => {
    const { rows, faults } = readPasted(text, 1);
    return faults.length > 0 ? faults.map(({ row, column }) => `${row} ${column}`) : rows.map(({ serial, denom, issued }) => [serial ?? "", denom, issued]);
  },
  values: ({ questions }) => library.rows(questions).map((row) => (row instanceof Error ? row.status : `${dollarsAndCents(row.valueCents)}${row.note && ` ${row.note}`}`)),
};

for await (const line of createInterface({ input: process.stdin })) {
  const task = JSON.parse(line);
  console.log(JSON.stringify(TASKS[task.kind](task)));
}
