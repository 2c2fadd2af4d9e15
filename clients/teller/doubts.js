// What may be mistyped or wrong, though the counter takes it: a letter that doesn't fit the denomination, an issue month in which no paper was sold, an open day that isn't of today's month, a large sum.
// The page asks before it sends it.

import * as bank from "./bank.js";
import { serverToday } from "./messages.js";
import { confirmed } from "./question.js";
import { monthOf } from "./spelling.js";
import { DOUBTS } from "./words.js";

// The letter of each denomination.
const LETTERS = { 50: "L", 75: "K", 100: "C", 200: "R", 500: "D", 1000: "M", 5000: "V", 10000: "X" };

// Paper was sold until this month, YYYY-MM.
const LAST_PAPER = "2011-12";

function denominationOf(letter) {
  return Object.keys(LETTERS).find((denom) => LETTERS[denom] === letter) ?? null;
}

// A row's issue month, MM/YYYY, as YYYY-MM.
function issueOf({ issued }) {
  return `${issued.slice(3)}-${issued.slice(0, 2)}`;
}

// The doubts about rows of a sheet, as sentences: one for all bonds of the same letter and denomination, and one for all of the same issue month.
export function doubtsOf(rows) {
  const of_letters = Map.groupBy(rows.filter(({ serial, denom }) => LETTERS[denom] !== serial[0]), ({ serial, denom }) => `${serial[0]} ${denom}`);
  const of_months = Map.groupBy(rows.filter((row) => issueOf(row) > LAST_PAPER), ({ issued }) => issued);
  const serials = (group) => group.map((row) => row.serial);
  return [
    ...[...of_letters.values()].map((group) => DOUBTS.letter(serials(group), group[0].serial[0], denominationOf(group[0].serial[0]), group[0].denom)),
    ...[...of_months.values()].map((group) => DOUBTS.month(serials(group), group[0].issued)),
  ];
}

// Whether nothing of the bonds is doubtful, or the teller says that it agrees with the paper.
async function agreesWithPaper(rows) {
  const doubts = doubtsOf(rows);
  return doubts.length === 0 || confirmed(DOUBTS.title, [...doubts, DOUBTS.back], DOUBTS.agree);
}

// Whether a day is of today's month by the server's clock, or the teller says that it is right. `act` is what the button says.
export async function isRightMonth(day, act) {
  const today = serverToday();
  return monthOf(day) === monthOf(today) || confirmed(DOUBTS.day_title(day), [DOUBTS.other_month(day, today), DOUBTS.day_back], act);
}

// The bank may want a second question above a sum of dollars, which it writes in bank.js.
async function isRightSum(cents) {
  const { ASK_ABOVE = null } = /** @type {{ ASK_ABOVE?: number | null }} */ (bank);
  return ASK_ABOVE === null || cents <= BigInt(ASK_ABOVE) * 100n || confirmed(DOUBTS.sum_title(cents), [DOUBTS.sum(BigInt(ASK_ABOVE) * 100n), DOUBTS.back], DOUBTS.sum_act);
}

// Whether nothing of a payment is doubtful, or the teller says that it is right.
export async function isWithoutDoubt(day, rows, cents) {
  return (await isRightMonth(day, DOUBTS.pay_in(day))) && (await agreesWithPaper(rows)) && isRightSum(cents);
}
