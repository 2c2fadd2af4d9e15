// The spellings of docs/FORMATS.md: customers, desks, days and money. A reader returns null if the text spells no value. What is typed from paper is read by typed.js; how the page says values is in words.js.

function wholeNumber(text, most_digits, least, most) {
  if (!/^[0-9]+$/.test(text) || text.length > most_digits) return null;
  const value = Number(text);
  return value >= least && value <= most ? value : null;
}

export function readCustomer(text) {
  return wholeNumber(text.trim(), 9, 1, 999999999);
}

export function readDesk(text) {
  return wholeNumber(text.trim(), 3, 0, 999);
}

export function readTicketNumber(text) {
  return wholeNumber(text.trim(), 15, 1, Number.MAX_SAFE_INTEGER);
}

// A real day as YYYY-MM-DD.
export function readDay(text) {
  const day = text.trim();
  if (!/^[0-9]{4}-[0-9]{2}-[0-9]{2}$/.test(day) || day < "2005-05-01" || day > "2199-12-31") return null;
  const date = new Date(`${day}T00:00:00Z`);
  return !Number.isNaN(date.getTime()) && date.toISOString().slice(0, 10) === day ? day : null;
}

export function monthOf(day) {
  return day.slice(0, 7);
}

export function noonOf(day) {
  return new Date(`${day}T12:00:00Z`);
}

// The number of days from one day to a later one; negative if it is earlier.
export function daysFrom(one, other) {
  return Math.round((noonOf(other).getTime() - noonOf(one).getTime()) / 86_400_000);
}

// The days before a day, nearest first.
export function daysBefore(day, count) {
  const before = (days) => new Date(noonOf(day).getTime() - days * 86_400_000).toISOString().slice(0, 10);
  return Array.from({ length: count }, (_, place) => before(place + 1)).filter((one) => readDay(one) !== null);
}

export function dayAfter(day) {
  return new Date(Number(noonOf(day)) + 86_400_000).toISOString().slice(0, 10);
}

// The later of two days. Either may be null.
export function laterOf(one, other) {
  return (one ?? "") > (other ?? "") ? one : other;
}

// The day of a moment in milliseconds, in this machine's time zone.
export function dayOf(moment) {
  const now = new Date(moment);
  const two = (number) => String(number).padStart(2, "0");
  return `${now.getFullYear()}-${two(now.getMonth() + 1)}-${two(now.getDate())}`;
}

export function today() {
  return dayOf(Date.now());
}

// Cents, from the printed text of money.
export function readMoney(text) {
  return /^(0|[1-9][0-9]*)\.[0-9]{2}$/.test(text) ? BigInt(text.replace(".", "")) : null;
}

export function printMoney(cents) {
  const digits = cents.toString().padStart(3, "0");
  return `${digits.slice(0, -2)}.${digits.slice(-2)}`;
}
