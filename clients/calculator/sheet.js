// The texts in which rows are saved: the sheet as the counter prints it (docs/FORMATS.md), and the same columns as CSV.

import { COLUMNS, MONEY } from "./rows.js";
import { moneyText } from "./spelling.js";

// By column: the heading, the least width, and whether its text stands on the right.
const HEADINGS = {
  serial: ["Serial", 13, false],
  series: ["Series", 6, false],
  denom: ["Denom", 6, true],
  issued: ["Issued", 7, false],
  next: ["Next", 7, false],
  final: ["Final", 7, false],
  price: ["Price", 12, true],
  interest: ["Interest", 14, true],
  rate: ["Rate", 6, true],
  value: ["Value", 14, true],
  note: ["Note", 0, false],
};

function placed(column, text) {
  const [, width, is_right] = HEADINGS[column];
  return is_right ? text.padStart(width) : text.padEnd(width);
}

function line(texts) {
  const cells = COLUMNS.filter((column) => column !== "note" || texts.note !== "").map((column) => placed(column, texts[column]));
  return `${cells.join(" ")}\n`;
}

const headings = () => Object.fromEntries(COLUMNS.map((column) => [column, HEADINGS[column][0]]));

function totalTexts(totals) {
  const empty = Object.fromEntries(COLUMNS.map((column) => [column, ""]));
  return { ...empty, serial: "Total", ...Object.fromEntries(MONEY.map((name) => [name, moneyText(totals[name])])) };
}

const tableOf = (rows, totals) => [headings(), ...rows.map((row) => row.texts), totalTexts(totals)];

export function sheetText(rows, totals) {
  return tableOf(rows, totals).map(line).join("");
}

export function sheetCsv(rows, totals) {
  return tableOf(rows, totals).map((texts) => `${COLUMNS.map((column) => texts[column]).join(",")}\n`).join("");
}
