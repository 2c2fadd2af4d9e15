// Reads the sheet of an owner's unpaid bonds exactly as docs/FORMATS.md prints it. If any byte differs from a sheet's, the result is null: nothing is guessed.

import { readMoney } from "./spelling.js";

const COLUMNS = [
  ["serial", "Serial", 13, "left"],
  ["series", "Series", 6, "left"],
  ["denom", "Denom", 6, "right"],
  ["issued", "Issued", 7, "left"],
  ["next", "Next", 7, "left"],
  ["final", "Final", 7, "left"],
  ["price", "Price", 12, "right"],
  ["interest", "Interest", 14, "right"],
  ["rate", "Rate", 6, "right"],
  ["value", "Value", 14, "right"],
];
const MONTH = "(?:0[1-9]|1[0-2])/[0-9]{4}";
const MONEY = "[0-9]+\\.[0-9]{2}";
const ROW = new RegExp(
  `^(?<serial>[A-Z][1-9][0-9]{0,9}EE) +(?<series>EE) +(?<denom>50|75|100|200|500|1000|5000|10000) (?<issued>${MONTH}) ` +
    `(?<next>${MONTH}| {7}) (?<final>${MONTH}| {7}) +(?<price>${MONEY}) +(?<interest>${MONEY}) +(?<rate>[0-9]{1,2}\\.[0-9]{2}%)? *(?<value>${MONEY})(?: (?<note>NI|NE|P5|MA))?$`,
);
const TOTALS = new RegExp(`^(?<serial>Total) +(?<price>${MONEY}) +(?<interest>${MONEY}) +(?<value>${MONEY})$`);

function line(cells) {
  let text = "";
  for (const [name, , width, side] of COLUMNS) {
    const cell = cells[name] ?? "";
    text += `${text === "" ? "" : " "}${side === "left" ? cell.padEnd(width) : cell.padStart(width)}`;
  }
  return cells.note ? `${text} ${cells.note}` : text;
}

const HEADING = line({ ...Object.fromEntries(COLUMNS.map(([name, heading]) => [name, heading])), note: "Note" });

// The cells of a line, if printing them gives that very line.
function cellsOf(pattern, text) {
  const found = pattern.exec(text);
  if (found === null) return null;
  const cells = {};
  for (const name of Object.keys(found.groups)) cells[name] = (found.groups[name] ?? "").trim();
  return line(cells) === text ? cells : null;
}

// The cells with their money as cents, if the value is price and interest.
function moneyOf(cells) {
  if (cells === null) return null;
  const [price, interest, value] = [cells.price, cells.interest, cells.value].map(readMoney);
  const is_spelled = price !== null && interest !== null && value !== null;
  return is_spelled && price + interest === value ? { ...cells, price, interest, value } : null;
}

function sum(rows, name) {
  return rows.reduce((cents, row) => cents + row[name], 0n);
}

export function readSheet(text) {
  const lines = text.split("\n");
  if (lines.length < 3 || lines[0] !== HEADING || lines.pop() !== "") return null;
  const totals = moneyOf(cellsOf(TOTALS, lines.pop()));
  const rows = lines.slice(1).map((row) => moneyOf(cellsOf(ROW, row)));
  if (totals === null || rows.includes(null)) return null;
  const is_whole = ["price", "interest", "value"].every((name) => sum(rows, name) === totals[name]);
  return is_whole && new Set(rows.map((row) => row.serial)).size === rows.length ? { rows, totals } : null;
}

// Whether a bond can be paid in the month of the sheet. `row.ticket` is the ticket on which it was paid since the sheet came.
export function isPayable(row) {
  return row.note !== "NI" && row.note !== "NE" && !isPaid(row);
}

export function isPaid(row) {
  return row.ticket !== undefined;
}
