// The spellings of docs/FORMATS.md, read and printed. A reader returns null if the text spells no value. A month is the count of months since
// year 0, a rate hundredths of a percent, and money cents.

const FIRST_MONTH = 12 * 2005 + 4;
export const LAST_MONTH = 12 * 2199 + 11;
const LAST_ISSUE = 12 * 2099 + 11;

export const DENOMINATIONS = [50, 75, 100, 200, 500, 1000, 5000, 10000];

function inRange(value, least, most) {
  return value >= least && value <= most ? value : null;
}

function monthUpTo(text, most) {
  const found = /^([0-9]{4})-([0-9]{2})$/.exec(text) ?? /^([0-9]{2})\/([0-9]{4})$/.exec(text);
  if (found === null) return null;
  const [year, month] = found[1].length === 4 ? [found[1], found[2]] : [found[2], found[1]];
  if (inRange(Number(month), 1, 12) === null) return null;
  return inRange(12 * Number(year) + Number(month) - 1, FIRST_MONTH, most);
}

export function readMonth(text) {
  return monthUpTo(text, LAST_MONTH);
}

export function readIssue(text) {
  return monthUpTo(text, LAST_ISSUE);
}

export function readRate(text) {
  const found = /^([0-9]{1,2})(?:\.([0-9]{1,2}))?%?$/.exec(text);
  return found === null ? null : inRange(100 * Number(found[1]) + Number((found[2] ?? "").padEnd(2, "0")), 0, 2000);
}

export function readDenom(text) {
  const dollars = Number(text);
  return DENOMINATIONS.includes(dollars) && String(dollars) === text ? dollars : null;
}

export function readCustomer(text) {
  return /^[0-9]{1,9}$/.test(text) ? inRange(Number(text), 1, 999_999_999) : null;
}

// The canonical text of a serial number, which is its identity. A bond without one is #1, #2 and so on: only this page writes and reads that.
export function readSerial(text) {
  if (/^#[1-9][0-9]{0,8}$/.test(text)) return text;
  const found = /^([A-Z])-?([0-9]{1,10})-?EE$/.exec(text);
  return found === null || Number(found[2]) === 0 ? null : `${found[1]}${Number(found[2])}EE`;
}

export function isUnnumbered(serial) {
  return serial.startsWith("#");
}

// A number by which serial numbers are in the counter's order: by letter, then by number. Bonds without a serial number come last.
export function serialOrder(serial) {
  if (isUnnumbered(serial)) return 27 * 10_000_000_000 + Number(serial.slice(1));
  return (serial.charCodeAt(0) - 64) * 10_000_000_000 + Number(serial.slice(1, -2));
}

const two = (number) => String(number).padStart(2, "0");
const parts = (month) => [String(Math.floor(month / 12)), two((month % 12) + 1)];

export function monthText(month) {
  return parts(month).join("-");
}

export function sheetMonthText(month) {
  return parts(month).reverse().join("/");
}

// The number YYYYMM, as the library takes it.
export function monthNumber(month) {
  return Number(parts(month).join(""));
}

// The month of a text YYYY-MM that the library gave.
export function monthOf(text) {
  return 12 * Number(text.slice(0, 4)) + Number(text.slice(5)) - 1;
}

export function moneyText(cents) {
  const digits = String(cents).padStart(3, "0");
  return `${digits.slice(0, -2)}.${digits.slice(-2)}`;
}

export function rateText(hundredths) {
  return `${moneyText(hundredths)}%`;
}

// Money as people read it: a dollar sign, and a comma before every three digits.
export function dollarsText(cents) {
  return `$${moneyText(cents).replace(/\B(?=([0-9]{3})+\.)/g, ",")}`;
}

// The latest May or November that isn't after a month.
export function periodOf(month) {
  const of_year = month % 12;
  return month - ((of_year + 12 - 4) % 6);
}

export function isAnnouncement(month) {
  return periodOf(month) === month;
}
