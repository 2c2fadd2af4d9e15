// Compares a module with the published values and with rows that others worked out: `node modules.mjs MODULE.wasm PUBLISHED_FOLDER ROWS.json`. Prints how many are equal.
import { readFileSync } from "node:fs";
import * as ee from "../../../clients/value/ee-value.js";

const [file, folder, asked] = process.argv.slice(2);
const value = await ee.load(readFileSync(file));
const lines = (name) => readFileSync(`${folder}/${name}`, "utf8").trim().split("\n").slice(1).map((line) => line.split(","));
const rates = lines("rates.csv");
const rateOf = (issued) => rates.filter(([from]) => from <= issued).at(-1)[1];
const thrown = (call) => {
  try {
    return call();
  } catch (failure) {
    return failure instanceof ee.Refused ? -failure.status : String(failure);
  }
};

// Each published value at each denomination: by `cents`, by `row` and as one list.
function published() {
  const wanted = lines("published-values.csv").flatMap(([issued, month, unit]) => [50, 75, 100, 200, 500, 1000, 5000, 10000].map((dollars) => [[dollars, issued, month, rateOf(issued)], (unit * dollars) / 25]));
  const list = value.rows(wanted.map(([question]) => question));
  const is_equal = ([question, cents], place) => value.cents(...question) === cents && value.row(...question).valueCents === cents && list[place].payableCents === cents;
  return { asked: wanted.length, equal: wanted.filter(is_equal).length };
}

const month = (number) => (number === 0 ? null : `${String(number).slice(0, 4)}-${String(number).slice(4)}`);
const same = (one, other) => JSON.stringify(one) === JSON.stringify(other);

// Rows of numbers: payable, price, interest, value, status, note, next accrual, final maturity; and cents.
function rows() {
  const wanted = JSON.parse(readFileSync(asked, "utf8"));
  const list = value.rows(wanted.map(({ question }) => question));
  const shape = ([payableCents, priceCents, interestCents, valueCents, , note, next, final]) => ({ payableCents, priceCents, interestCents, valueCents, note: ee.NOTES[note], nextAccrual: month(next), finalMaturity: month(final) });
  const is_equal = ({ question, row, cents }, place) => {
    const listed = list[place] instanceof ee.Refused ? -list[place].status : list[place];
    const whole = row[4] === 0 ? shape(row) : -row[4];
    return same(listed, whole) && same(thrown(() => value.row(...question)), whole) && thrown(() => value.cents(...question)) === cents;
  };
  return { asked: wanted.length, equal: wanted.filter(is_equal).length };
}

// What no 32 bits hold is refused, and what is no whole number is an error of type; the texts are the library's.
function borders() {
  const fine = [50, 201005, 201505, 350];
  const put = (place, what) => fine.map((one, at) => (at === place ? what : one));
  const refused = [-1, 2 ** 32 + 50, 2 ** 53, -(2 ** 31)].every((what) => [0, 1, 2, 3].every((place) => thrown(() => value.cents(...put(place, what))) === -(place + 1)));
  const typed = [3.5, NaN, null, undefined, {}, 50n, true].every((what) => [0, 1, 2, 3].every((place) => String(thrown(() => value.cents(...put(place, what)))).startsWith("TypeError")));
  const texts = ["2010-5", "2010/05", "201005", " 2010-05", "05-2010"].every((text) => thrown(() => value.cents(50, text, "2015-05", "3.50")) === -2) && ["3.505", "", "+3", "3,5", "350"].every((text) => thrown(() => value.cents(50, "2010-05", "2015-05", text)) === -4);
  const empty = value.rows([]).length === 0 && value.cents(50, "05/2010", "2015-05", "3.5%") === 2974 && value.cents(50, "2010-05", "2030-11", "3.40", "4.00") === 5100;
  const words = value.statusText(7) === "the bond can't be redeemed before 12 months" && value.version === ee.VERSION;
  const many = value.rows(Array.from({ length: 100_000 }, () => fine));
  return { refused, typed, texts, empty, words, many: many.length === 100_000 && many.every((row) => row.valueCents === 2974) };
}

console.log(JSON.stringify({ published: published(), rows: rows(), borders: borders() }));
