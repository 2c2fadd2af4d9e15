/** What paper Series EE savings bonds pay, to the cent: types of ee-value.js. */

/** YYYY-MM or MM/YYYY as a text, or YYYYMM as a whole number. */
export type Month = string | number;
/** A text in percent, as "3.50", or a whole number of hundredths of a percent, as 350. */
export type Rate = string | number;
export type Note = "" | "NI" | "NE" | "P5" | "MA";
/** Dollars, issue month, month that is asked for, fixed rate, and the rate of extended maturity (the fixed rate if it is left out). */
export type Question = readonly [dollars: number, issued: Month, month: Month, rate: Rate, extension?: Rate | null];

/** A bond's row of the Savings Bond Calculator in a month, and what the bond pays then. */
export interface Row {
  /** 0 under the notes NI and NE. */
  payableCents: number;
  priceCents: number;
  interestCents: number;
  valueCents: number;
  note: Note;
  /** YYYY-MM, or null under the notes NI and MA. */
  nextAccrual: string | null;
  /** YYYY-MM, or null under the note NI. */
  finalMaturity: string | null;
}

export class Refused extends Error {
  /** One of the constants from BAD_DENOMINATION to UNSETTLED. */
  readonly status: number;
}

export interface Value {
  /** The version of the module. */
  readonly version: number;
  cents(...question: Question): number;
  row(...question: Question): Row;
  rows(questions: Iterable<Question>): (Row | Refused)[];
  statusText(status: number): string;
}

export function load(source?: string | URL | BufferSource | WebAssembly.Module): Promise<Value>;
export function monthNumber(month: Month): number;
export function hundredths(rate: Rate): number;
export function dollarsAndCents(cents: number): string;

export const VERSION: number;
export const NOTES: readonly Note[];
export const DONE: 0;
export const BAD_DENOMINATION: 1;
export const BAD_ISSUE_MONTH: 2;
export const BAD_MONTH: 3;
export const BAD_RATE: 4;
export const BAD_EXTENSION: 5;
/** Of `cents` alone: the month is before the issue month. */
export const NOT_ISSUED: 6;
/** Of `cents` alone: the bond can't be redeemed before 12 months. */
export const NOT_ELIGIBLE: 7;
/** The value is too close to a half cent for 62 binary places. No terms are known that have such a value. */
export const UNSETTLED: 8;
