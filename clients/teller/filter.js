// Which bonds of a sheet a filter leaves: those of which each word that was typed is a part of the serial number, the denomination, or the issue month in any usual form.

import { readSerial } from "./typed.js";
import { monthInWords } from "./words.js";

const LEAST_OF_NAME = 3;

// By issue month as the sheet has it: its other forms.
const months = new Map();

function monthOf(issued) {
  if (!months.has(issued)) {
    const [month, year] = issued.split("/");
    months.set(issued, { digits: [issued, `${year}-${month}`], name: monthInWords(`${year}-${month}`).toUpperCase() });
  }
  return months.get(issued);
}

function hasWord(row, word) {
  const { digits, name } = monthOf(row.issued);
  const is_month = digits.some((text) => text.includes(word.text)) || (word.text.length >= LEAST_OF_NAME && name.startsWith(word.text));
  return row.serial.includes(word.text) || row.denom === word.dollars || is_month;
}

export function filtered(rows, typed) {
  if (typed.trim() === "") return rows;
  const serial = /E\W*E\W*$/i.test(typed) ? readSerial(typed) : null;
  if (serial !== null) return rows.filter((row) => row.serial === serial);
  const words = typed.trim().toUpperCase().split(/\s+/).map((text) => ({ text, dollars: text.replace(/[$,]/g, "") }));
  return rows.filter((row) => words.every((word) => hasWord(row, word)));
}
