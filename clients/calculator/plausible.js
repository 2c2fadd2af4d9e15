// What doesn't look like a paper bond. It is a remark, and never refuses a bond.

import { isUnnumbered } from "./spelling.js";

// The letter with which the serial numbers of a denomination begin.
const LETTERS = { 50: "L", 75: "K", 100: "C", 200: "R", 500: "D", 1000: "M", 5000: "V", 10000: "X" };
// December 2011, in which the sale of paper bonds ended.
const LAST_SALE = 12 * 2011 + 11;

function letterDoubt({ serial, denom }) {
  const letter = LETTERS[denom];
  const is_usual = serial === null || isUnnumbered(serial) || serial.startsWith(letter);
  return is_usual ? [] : [{ name: "letter", denom, letter }];
}

/** Returns what a teller would compare with the paper: the serial number's letter, and an issue month after the sale of paper bonds. */
export function doubtsOf(bond) {
  return [...letterDoubt(bond), ...(bond.issued > LAST_SALE ? [{ name: "late" }] : [])];
}
