// What people type from the paper of a bond: its serial number, denomination and issue month, and months. The tellers' page and the calculator read by this module, and the Python client by typed.py;
// tests/clients/typed.toml has the spellings. A reader returns `{ value }`, or `{ value: null, why }`:
// "series" for a bond of another series, "early" for a month before May 2005, "unclear" for a month that can be read in two ways, and "none" for anything else.

const FIRST_MONTH = "2005-05";
const LAST_MONTH = "2199-12";
const LAST_ISSUE = "2099-12";
const DENOMINATIONS = [50, 75, 100, 200, 500, 1000, 5000, 10_000];

// The savings bonds and notes that aren't of Series EE.
const OTHER_SERIES = /^(?:E|F|G|H|HH|I|J|K)$/;

// A year of two digits is of this century below this number. Savings bonds of an earlier year 41, and later ones, are of the last.
const FIRST_SERIES_E = 41;

// The names of months, which the bank may have in its own language.
let months = ["January", "February", "March", "April", "May", "June", "July", "August", "September", "October", "November", "December"];

export function nameMonths(names) {
  months = names;
}

const read = (value) => ({ value, why: null });
const refused = (why) => ({ value: null, why });

/** Returns the text without spaces around it, with plain spaces alone, and with its wide letters and digits as others are. */
export function plain(text) {
  return text.normalize("NFKC").replace(/[\s\u200b\ufeff]+/g, " ").trim();
}

// A serial number as it is printed. It may have small letters, spaces, points, commas and any dashes, and lack its EE: the counter has no other series.
export function typedSerial(text) {
  const signs = plain(text).replace(/[\s\p{Pd}\u2212.,]/gu, "").toUpperCase();
  const [, letter, digits, series] = /^([A-Z])([0-9]{1,10})([A-Z]{0,2})$/.exec(signs) ?? [];
  if (letter === undefined || Number(digits) === 0) return refused("none");
  if (series === "" || series === "EE") return read(`${letter}${Number(digits)}EE`);
  return refused(OTHER_SERIES.test(series) ? "series" : "none");
}

// The texts of serial numbers in a list. Spaces, commas or semicolons part them; after EE nothing is needed.
export function serialsIn(text) {
  const texts = plain(text).split(/(?<=EE)[\s,;.]*(?=[^\s,;.])|\s*;[\s,;]*|[\s,]+(?=[A-Z][\s\p{Pd}\u2212.,]*[0-9])/iu);
  return texts.filter((one) => one !== "");
}

// Whole dollars: 1000, 1,000, $1,000.00, 10 000, USD 50, 50 dollars.
export function typedDenomination(text) {
  const [, dollars] = /^(?:USD?)? ?\$? ?([0-9]{1,3}(?:[, ][0-9]{3})+|[0-9]{1,6})(?:\.0{0,2})?(?: ?USD| dollars)?$/i.exec(plain(text)) ?? [];
  const found = DENOMINATIONS.find((denom) => denom === Number(dollars?.replace(/[, ]/g, "")));
  return found === undefined || dollars.startsWith("0") ? refused("none") : read(found);
}

const MIDNIGHT = /[ T](?:0?0:00(?::00(?:\.0+)?)?|12:00(?::00)? ?AM)Z?$/i;
const WEEKDAY = /^\p{L}+day, /iu;

/**
 * The parts of every spelling of a month, or of the first day of one: Year, Month by its number or name, Day.
 * @type {[RegExp, string][]}
 */
const DATES = [
  [/^([0-9]{4})[-/.]([0-9]{1,2})(?:[-/.]([0-9]{1,2}))?$/, "YMD"],
  [/^([0-9]{1,2})[-/., ]+([0-9]{4})$/, "MY"],
  [/^([0-9]{1,2})([-/ ])([0-9]{1,2})\2([0-9]{4}|[0-9]{2})$/, "M-DY"],
  [/^([0-9]{1,2})\.([0-9]{1,2})\.([0-9]{4}|[0-9]{2})$/, "DMY"],
  [/^((?:19|2[01])[0-9]{2})([0-9]{2})([0-9]{2})?$/, "YMD"],
  [/^([0-9]{1,2})((?:19|2[01])[0-9]{2})$/, "MY"],
  [/^([0-9]{2})([0-9]{2})((?:19|2[01])[0-9]{2})$/, "MDY"],
  [/^(\p{L}{3,})\.?[ ,/.-]*(?:([0-9]{1,2}),? )?([0-9]{4})$/u, "MDY"],
  [/^(\p{L}{3,})\.?(?:-| ?['\u2019])([0-9]{2})$/u, "MY"],
  [/^([0-9]{1,2})[- ](\p{L}{3,})\.?[- ,]+([0-9]{4}|[0-9]{2})$/u, "DMY"],
];

// Digits of a month whose year is cut short or has no sign before it: 510, 0510, 05/10, May 10.
const UNCLEAR = /^(?:[0-9]{3,8}|(?:[0-9]{1,2}|\p{L}{3,}\.?)[-/., ]+[0-9]{1,2})$/u;

function monthNumber(text) {
  if (/^[0-9]+$/.test(text)) return Number(text);
  const name = text.toLowerCase();
  return months.findIndex((one) => one.toLowerCase().startsWith(name) || (name === "sept" && one === "September")) + 1;
}

function wholeYear(text) {
  if (text.length === 4) return text;
  return `${Number(text) < FIRST_SERIES_E ? "20" : "19"}${text}`;
}

// A month up to `last` as YYYY-MM. If it is typed with a day, that is the first. Numbers are in the American order, month before day.
export function typedMonth(text, last = LAST_MONTH) {
  const date = plain(text).replace(MIDNIGHT, "").replace(WEEKDAY, "");
  const form = DATES.find(([pattern]) => pattern.test(date));
  if (form === undefined) return refused(UNCLEAR.test(date) ? "unclear" : "none");
  const [pattern, order] = form;
  const parts = pattern.exec(date);
  const part = (name) => (order.includes(name) ? parts[order.indexOf(name) + 1] : undefined);
  const month = monthNumber(part("M"));
  if (Number(part("D") ?? 1) !== 1) return refused("unclear");
  if (month < 1 || month > 12) return refused("none");
  const found = `${wholeYear(part("Y"))}-${String(month).padStart(2, "0")}`;
  if (found < FIRST_MONTH) return refused("early");
  return found <= last ? read(found) : refused("none");
}

export function typedIssue(text) {
  return typedMonth(text, LAST_ISSUE);
}

/** What a reader finds, or null. */
const valueOf = (typed) => (text) => typed(text).value;

export const readSerial = valueOf(typedSerial);
export const readDenomination = valueOf(typedDenomination);
export const readMonth = valueOf(typedMonth);
export const readIssueMonth = valueOf(typedIssue);

// As a sheet prints it: MM/YYYY.
export function monthAsPrinted(month) {
  return `${month.slice(5)}/${month.slice(0, 4)}`;
}
