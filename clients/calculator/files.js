// Inventories and rate files in the counter's format (docs/FORMATS.md), read and written. A reader returns `{ rows, faults }`. The first fault is
// the one that the counter names; there are no rows if there is a fault.

import { records } from "./csv.js";
import { moneyText, monthText, readCustomer, readDenom, readIssue, readRate, readSerial } from "./spelling.js";

export const MOST_BYTES = 1_048_576;
const BAD_HEADER = 70;
const WRONG_FIELD_COUNT = 71;
const BAD_VALUE = 72;
const TOO_LONG = 75;

const optional = (read) => (text) => (text === "" ? undefined : read(text));

// By column: how it is read. `undefined` is an empty field that may be empty.
const READERS = {
  from: readIssue,
  rate: readRate,
  extension: optional(readRate),
  serial: readSerial,
  denom: readDenom,
  issued: readIssue,
  owner: readCustomer,
  coowner: optional(readCustomer),
};

export const INVENTORY = ["serial", "denom", "issued", "owner", "coowner"];
const RATES = ["from", "rate"];
const EXTENDED = ["from", "rate", "extension"];

const isHeader = (columns, record) => record.length === columns.length && record.every((field, place) => field === columns[place]);

// One record's row, or its first fault from the left.
export function readRow(columns, record, row) {
  if (record.length !== columns.length) return { fault: { row, code: WRONG_FIELD_COUNT, wanted: columns.length, found: record.length } };
  const values = { row };
  for (const [place, column] of columns.entries()) {
    const value = record[place] === null ? null : READERS[column](record[place]);
    if (value === null) return { fault: { row, code: BAD_VALUE, column, text: record[place] } };
    values[column] = value;
  }
  return { values };
}

export function readRows(columns, list, first_row) {
  const read = list.map((record, place) => readRow(columns, record, first_row + place));
  const faults = read.filter((one) => one.fault !== undefined).map((one) => one.fault);
  return { rows: faults.length > 0 ? [] : read.map((one) => one.values), faults };
}

function readFile(bytes, headers, most) {
  if (bytes.length > most) return { rows: [], faults: [{ row: 1, code: TOO_LONG }] };
  const [header, ...rest] = records(bytes);
  if (header === undefined) return { rows: [], faults: [] };
  const columns = headers.find((one) => isHeader(one, header));
  if (columns === undefined) return { rows: [], faults: [{ row: 1, code: BAD_HEADER, headers }] };
  return readRows(columns, rest, 2);
}

// `most` is the greatest length in bytes. An inventory that the page itself kept has none.
export function readInventory(bytes, most = MOST_BYTES) {
  return readFile(bytes, [INVENTORY], most);
}

// An empty extension, or none, is the fixed rate.
export function readRates(bytes) {
  const { rows, faults } = readFile(bytes, [RATES, EXTENDED], MOST_BYTES);
  return { rows: rows.map((row) => ({ ...row, extension: row.extension ?? row.rate })), faults };
}

// A fault as the counter prints it.
export function faultText(fault) {
  return `row ${fault.row} code ${fault.code}`;
}

const lines = (rows) => rows.map((fields) => `${fields.join(",")}\n`).join("");

export function writeInventory(bonds) {
  return lines([INVENTORY, ...bonds.map((bond) => [bond.serial, bond.denom, monthText(bond.issued), bond.owner, bond.coowner ?? ""])]);
}

// A rate file with extensions. An extension that is the fixed rate is left empty.
export function writeRates(rates) {
  return lines([EXTENDED, ...[...rates].map(([from, { rate, extension }]) => [monthText(from), moneyText(rate), extension === rate ? "" : moneyText(extension)])]);
}
