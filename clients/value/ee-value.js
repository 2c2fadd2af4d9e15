// What paper Series EE savings bonds pay, to the cent: the proved library ee_value as a WebAssembly module, for web pages and Node.
//
//   import { load } from "ee-value";
//   const value = await load();
//   value.cents(50, "2010-05", "2026-11", "1.40");                 // 3148
//   value.row(50, "2010-05", "2030-11", "3.40", "4.00").note;      // ""
//   value.rows([[50, "2010-05", "2015-05", "3.50"]]);              // one call for a list
//
// A bond is its denomination in dollars, its month of issue and its rates: the fixed rate of its issue period and the rate of extended
// maturity, which is the fixed rate again if it is left out. A month is a text YYYY-MM or MM/YYYY, or a whole number YYYYMM. A rate is a text
// in percent ("3.50", "3.5%"), or a whole number of hundredths of a percent (350). Amounts are whole numbers of cents.

/** The version of the library that this module is for: 10000 times the first part, 100 times the second, and the third. */
export const VERSION = 10000;

export const DONE = 0;
export const BAD_DENOMINATION = 1;
export const BAD_ISSUE_MONTH = 2;
export const BAD_MONTH = 3;
export const BAD_RATE = 4;
export const BAD_EXTENSION = 5;
export const NOT_ISSUED = 6;
export const NOT_ELIGIBLE = 7;
export const UNSETTLED = 8;

/** The notes of a row by their number, as the Savings Bond Calculator prints them. */
export const NOTES = Object.freeze(["", "NI", "NE", "P5", "MA"]);

// A number that the library refuses in every place.
const NO_NUMBER = 2 ** 32 - 1;
const QUESTION_BYTES = 20;
const ROW_BYTES = 48;
const TEXT_BYTES = 64;
const PAGE_BYTES = 65536;

/** A call that has no answer. `status` says why, by one of this module's constants. */
export class Refused extends Error {
  constructor(status, text) {
    super(text);
    this.name = "Refused";
    this.status = status;
  }
}

// The number as the library takes it. A number outside 32 bits would be cut to another one, so it becomes one that the library refuses.
function whole(value, what) {
  if (typeof value !== "number" || !Number.isInteger(value)) throw new TypeError(what);
  return value >= 0 && value < NO_NUMBER ? value : NO_NUMBER;
}

/** Returns a month as the number YYYYMM that the library takes; a text that is no month gives a number that the library refuses. */
export function monthNumber(value) {
  if (typeof value !== "string") return whole(value, "a month is a text YYYY-MM or MM/YYYY, or a whole number YYYYMM");
  const [, year, month] = /^([0-9]{4})-([0-9]{2})$/.exec(value) ?? [];
  if (year !== undefined) return Number(year + month);
  const [, first, second] = /^([0-9]{2})\/([0-9]{4})$/.exec(value) ?? [];
  return first === undefined ? NO_NUMBER : Number(second + first);
}

/** Returns a rate as the hundredths of a percent that the library takes; a text that is no rate gives a number that the library refuses. */
export function hundredths(value) {
  if (typeof value !== "string") return whole(value, "a rate is a text in percent, or a whole number of hundredths of a percent");
  const [, percent, part] = /^([0-9]{1,2})(?:\.([0-9]{1,2}))?%?$/.exec(value) ?? [];
  return percent === undefined ? NO_NUMBER : 100 * Number(percent) + Number((part ?? "").padEnd(2, "0"));
}

/** Returns an amount of cents as its text: 2974 is 29.74. */
export function dollarsAndCents(cents) {
  const digits = String(cents).padStart(3, "0");
  return `${digits.slice(0, -2)}.${digits.slice(-2)}`;
}

function numbers(dollars, issued, month, rate, extension) {
  const fixed = hundredths(rate);
  const extended = extension === undefined || extension === null ? fixed : hundredths(extension);
  return [whole(dollars, "dollars are a whole number"), monthNumber(issued), monthNumber(month), fixed, extended];
}

function monthText(number) {
  if (number === 0) return null;
  const digits = String(number);
  return `${digits.slice(0, 4)}-${digits.slice(4)}`;
}

function aligned(bytes) {
  return 8 * Math.ceil(bytes / 8);
}

// Amounts are below 2^53: a bond is worth at most 1,522,468.00 dollars.
function amount(view, at) {
  return view.getUint32(at, true) + 2 ** 32 * view.getUint32(at + 4, true);
}

/** The library over one instance of its module. `load` makes it. */
class Value {
  #calls;
  #base;

  constructor(calls) {
    this.#calls = calls;
    this.version = calls.ee_value_version() >>> 0;
    if (Math.floor(this.version / 10000) !== Math.floor(VERSION / 10000)) throw new Error(`the module has version ${this.version}, and ee-value.js is for ${VERSION}`);
    this.#base = aligned(Number(calls.__heap_base.value));
  }

  /** Returns what a bond pays in a month, in cents. Throws Refused if it pays nothing, or if an argument is no denomination, month or rate. */
  cents(dollars, issued, month, rate, extension) {
    const answer = Number(this.#calls.ee_value_cents(...numbers(dollars, issued, month, rate, extension)));
    if (answer < 0) throw this.#refused(-answer);
    return answer;
  }

  /** Returns a bond's row in a month. Throws Refused if an argument is no denomination, month or rate. */
  row(dollars, issued, month, rate, extension) {
    const at = this.#room(ROW_BYTES);
    this.#calls.ee_value_row_into(...numbers(dollars, issued, month, rate, extension), BigInt(at));
    const found = this.#rowAt(this.#view(), at);
    if (found instanceof Refused) throw found;
    return found;
  }

  /**
   * Returns the answer to every `[dollars, issued, month, rate]` or `[dollars, issued, month, rate, extension]` of a list: its row, or a
   * Refused, which is not thrown. One call of the library answers them all.
   */
  rows(questions) {
    const asked = Array.from(questions, (question) => numbers(...question));
    const room = aligned(asked.length * QUESTION_BYTES);
    const from = this.#room(room + asked.length * ROW_BYTES);
    const into = from + room;
    const view = this.#view();
    asked.flat().forEach((number, place) => view.setUint32(from + 4 * place, number, true));
    const count = BigInt(asked.length);
    this.#calls.ee_value_rows(BigInt(from), count, BigInt(into), count);
    return asked.map((_, place) => this.#rowAt(view, into + place * ROW_BYTES));
  }

  /** Returns what a status says, as the library words it. */
  statusText(status) {
    this.#room(0);
    const at = this.#base;
    const length = Number(this.#calls.ee_value_status_text(whole(status, "a status is a whole number"), BigInt(at), BigInt(TEXT_BYTES)));
    return String.fromCharCode(...new Uint8Array(this.#calls.memory.buffer, at, length));
  }

  #refused(status) {
    return new Refused(status, this.statusText(status));
  }

  #view() {
    return new DataView(this.#calls.memory.buffer);
  }

  // The place of the bytes that a call reads and writes. It is behind all that the module has for itself, and behind the text of a status.
  #room(bytes) {
    const { memory } = this.#calls;
    const place = this.#base + TEXT_BYTES;
    const missing = Math.ceil((place + bytes - memory.buffer.byteLength) / PAGE_BYTES);
    if (missing > 0) grow(memory, missing);
    return place;
  }

  #rowAt(view, at) {
    const status = view.getUint32(at + 32, true);
    if (status !== DONE) return this.#refused(status);
    return {
      payableCents: amount(view, at),
      priceCents: amount(view, at + 8),
      interestCents: amount(view, at + 16),
      valueCents: amount(view, at + 24),
      note: NOTES[view.getUint32(at + 36, true)],
      nextAccrual: monthText(view.getUint32(at + 40, true)),
      finalMaturity: monthText(view.getUint32(at + 44, true)),
    };
  }
}

// A memory of 64 bits grows by a BigInt, and one of 32 bits by a number.
function grow(memory, pages) {
  try {
    memory.grow(pages);
  } catch (failure) {
    if (!(failure instanceof TypeError)) throw failure;
    memory.grow(BigInt(pages));
  }
}

async function bytesAt(url) {
  if (url.protocol === "file:" && globalThis.process?.versions?.node !== undefined) {
    const { readFile } = await import(/* webpackIgnore: true */ "node:fs/promises");
    return readFile(url);
  }
  const response = await fetch(url);
  if (!response.ok) throw new Error(`${url} answers ${response.status}`);
  return response.arrayBuffer();
}

/**
 * Loads the library. Without an argument it takes `out/ee_value.wasm` beside this file. `source` may be another URL, the module's bytes, or a
 * `WebAssembly.Module`.
 */
export async function load(source = new URL("./out/ee_value.wasm", import.meta.url)) {
  if (source instanceof WebAssembly.Module) return new Value((await WebAssembly.instantiate(source, {})).exports);
  const is_place = typeof source === "string" || source instanceof URL;
  const bytes = is_place ? await bytesAt(new URL(source, globalThis.document?.baseURI ?? import.meta.url)) : source;
  return new Value((await WebAssembly.instantiate(bytes, {})).instance.exports);
}
