// All texts of the page, in English. For another language, write an object with the same keys, and choose it at the end.

import { UNSETTLED } from "../value/ee-value.js";
import { dollarsText, monthText } from "./spelling.js";

const MONTHS = ["January", "February", "March", "April", "May", "June", "July", "August", "September", "October", "November", "December"];

const month = (count) => `${MONTHS[count % 12]} ${Math.floor(count / 12)}`;
const counted = (count, one, many) => `${count.toLocaleString("en-US")} ${count === 1 ? one : many}`;
const bonds = (count) => counted(count, "bond", "bonds");
const quoted = (text) => (text === null ? "bytes that aren't text" : text === "" ? "nothing" : `“${text}”`);

// By column of a file: what its field is to be.
const SPELLINGS = {
  from: "a month from 2005-05 to 2099-12, as 2010-05 or 05/2010",
  rate: "a rate from 0 to 20.00 %, as 3.50 or 3.50%",
  extension: "empty, or a rate from 0 to 20.00 %, as 4.00",
  serial: "a serial number: a letter from A to Z, a number of 1 to 10 digits, and EE, as C12EE or C-12-EE",
  series: "EE: this page values no other series",
  denom: "50, 75, 100, 200, 500, 1000, 5000 or 10000",
  issued: "a month from 2005-05 to 2099-12, as 2010-05 or 05/2010",
  owner: "a customer number of 1 to 9 digits",
  coowner: "empty, or a customer number of 1 to 9 digits",
};

const FAULTS = {
  70: (fault) => `The first row isn't the header ${fault.headers.map((one) => one.join(",")).join(" or ")}.`,
  71: (fault) => `The row has ${counted(fault.found, "column", "columns")} and needs ${fault.wanted}.`,
  72: (fault) => `The column ${fault.column} has ${quoted(fault.text)}. It must be ${SPELLINGS[fault.column]}.`,
  75: () => "The file is longer than 1,048,576 bytes.",
};

const REFUSALS = {
  11: () => "There are no rows.",
  12: () => "There are more than 500 rates.",
  13: (it) => `The serial number ${it.serial} is there twice.`,
  14: (it) => `Bond ${it.serial} has one customer as owner and coowner.`,
  20: (it) => `Rates hold from a May or November, and not from ${month(it.month)}.`,
  21: (it) => `The file has two different rates from ${month(it.month)}.`,
  30: (it) => `There is no rate for ${month(it.month)}, in which bond ${it.serial} was issued. Open a rate file that has it first.`,
  31: (it) => `Bond ${it.serial} is in the inventory with a different denomination, issue month, owner or coowner.`,
};

const NOTES = { NI: "not issued yet", NE: "under 12 months: can't be cashed yet", P5: "under 5 years: less 3 months' interest", MA: "30 years old: earns no more interest", "": "" };

// What to compare with a bond's paper.
const DOUBTS = {
  letter: ({ denom, letter }) => `Serial numbers of $${denom.toLocaleString("en-US")} bonds begin with ${letter}.`,
  late: () => "Paper bonds were sold until December 2011.",
};

const at = (row) => (row === undefined ? "" : `Row ${row}: `);

export const EN = {
  language: "en",
  title: "Savings Bond Calculator",
  subtitle: "Paper Series EE savings bonds issued since May 2005",
  skip: "Skip to the content",
  close: "Close",

  one_title: "The value of a bond",
  one_hint: "Choose a denomination and write an issue month: the value is shown here.",
  one_unrated: (issued) => `There is no rate for bonds issued in ${month(issued)}. Open a rate file that has it below.`,
  one_says: ({ bond, cents, texts }, value) =>
    `A $${bond.denom.toLocaleString("en-US")} bond issued in ${month(bond.issued)}, in ${month(value)}: price ${dollarsText(cents.price)}, interest ${dollarsText(cents.interest)}${texts.rate === "" ? "" : `, rate ${texts.rate}`}.${NOTES[texts.note] === "" ? "" : ` Note ${texts.note}: ${NOTES[texts.note]}.`}`,

  summary_title: "What all bonds are worth",
  month_label: "Value month",
  month_help: "Write a month from May 2005 to December 2199, as 11/2026, Nov 2026 or 2026-11.",
  month_show: "Show",
  month_back: "Month before",
  month_on: "Month after",
  month_shown: (value) => `Values in ${month(value)}.`,
  month_bad: (text) => `${quoted(text)} isn't a value month. Write a month from May 2005 to December 2199, as 11/2026, Nov 2026 or 2026-11.`,
  total_name: (count, value) => (count === 0 ? `No bonds yet. Values are for ${month(value)}.` : `Value of ${bonds(count)} in ${month(value)}`),
  sums: { price: "Issue price", interest: "Interest", year: (value) => `Interest of ${Math.floor(value / 12)}`, payable: "Payable now", next: (value) => `Value in ${month(value)}` },
  not_payable: (count) => (count === 0 ? "all bonds" : `all but ${bonds(count)} under 12 months or not issued yet`),
  year_interest: (cents, value) => `${dollarsText(cents)}, ${value % 12 === 0 ? "in January" : `from January to ${MONTHS[value % 12]}`}`,
  clock_wrong: (said, value) => `This device's clock says ${month(said)}, which can't be right. Values are for ${month(value)}: set the clock, or choose the value month.`,
  printed: (now) => `Printed ${now.toLocaleDateString("en-US", { year: "numeric", month: "long", day: "numeric" })}`,
  more: (cents) => `${dollarsText(Math.abs(cents))} ${cents < 0 ? "less" : "more"}`,

  add_title: "Add a list of bonds",
  serial_label: "Serial number (optional)",
  denom_label: "Denomination",
  denom_choose: "Choose",
  issued_label: "Issue month",
  add_button: "Add the bond",
  type_help: "Write the issue month as May 2010, 5/2010 or 2010-05, and the serial number, if you want to keep it, with its letter and EE, as C12EE.",
  owners_summary: "Owner and coowner, for a bank's inventory",
  owner_label: "Owner (customer number)",
  coowner_label: "Coowner (customer number)",
  owners_help: "Only a bank's counter uses these numbers. Leave 1 if you aren't a bank. Pasted bonds without an owner take this owner.",
  inventory_label: "Open an inventory (CSV file)",
  paste_summary: "Paste from a spreadsheet",
  paste_label: "Columns of a spreadsheet, or lines",
  paste_help: "Every line needs a denomination and an issue month; a serial number is optional. Columns may have any order. The page shows what it understood before anything is added.",
  paste_button: "Show what is understood",
  paste_add: (count) => (count === 1 ? "Add this bond" : `Add these ${count.toLocaleString("en-US")} bonds`),
  understood_title: "What the page understood",
  understood: (count) => (count === 0 ? "The page found no bonds in this text." : `${bonds(count)} understood. Compare ${count === 1 ? "it" : "them"} with your list below, then add ${count === 1 ? "it" : "them"}.`),
  understood_columns: (has_owners) => ["Row", "Serial", "Denom", "Issued", ...(has_owners ? ["Owner"] : [])],
  owners: (row) => `${row.owner}${row.coowner === undefined ? "" : `, coowner ${row.coowner}`}`,
  no_serial: "none",
  more_understood: (count) => `${counted(count, "bond", "bonds")} more.`,
  headed: (row) => `Row ${row} names the columns.`,
  ignored: (names) => `Not used: the ${names.length === 1 ? "column" : "columns"} ${names.join(", ")}.`,
  left_out: ({ row, text }) => `Row ${row} is no bond: “${text.slice(0, 60)}”`,
  more_left: (count) => `${counted(count, "more row is", "more rows are")} no bonds.`,
  to_mend: (count) => `${counted(count, "row needs", "rows need")} mending.`,
  mend_title: "Rows to mend",
  mend_help: "Correct a row here: it is read again as you leave the field. The bonds above can be added before that; these rows stay.",
  mend_label: (row, column) => `Row ${row}, ${{ serial: "serial", series: "series", denom: "denomination", issued: "issued", owner: "owner", coowner: "coowner" }[column]}`,
  working: "The list is being read ..",
  file_understood: "The page read the file as a list of a spreadsheet instead. Compare what it understood with your list, then add it.",
  doubts: DOUBTS,
  to_check: (count) => `Compare ${bonds(count)} with the paper.`,
  more_to_check: (count) => `Compare ${count.toLocaleString("en-US")} more with the paper.`,
  row_name: ({ row }) => `Row ${row}`,
  dollars: (count) => `$${count.toLocaleString("en-US")}`,
  added: (added, same, all) => `${bonds(added)} added.${same > 0 ? ` ${bonds(same)} already there.` : ""} ${all.toLocaleString("en-US")} in all.`,
  nothing_added: "Nothing was added.",
  removed: (serial) => `Bond ${serial} was removed.`,
  removed_all: (count) => `${bonds(count)} removed.`,
  ask_remove_all: (count) => `Remove ${bonds(count)} from this page?`,

  fault: (fault) => `Row ${fault.row}: ${FAULTS[fault.code](fault)} (row ${fault.row} code ${fault.code})`,
  typed_fault: (fault) => FAULTS[fault.code](fault),
  more_faults: (count) => `${counted(count, "more row has", "more rows have")} a fault.`,
  refusal: (it) => `${at(it.row)}${REFUSALS[it.code](it)} (code ${it.code}, ${it.name})`,
  unvalued: ({ serial, status, message }) =>
    status === UNSETTLED ? `The value of bond ${serial} is too close to a half cent for the library to settle (code 22, RateUnsettled).` : `The library has no value for bond ${serial} in this value month: ${message} (status ${status}).`,
  unreadable: (name) => `The file ${name} can't be read.`,

  bonds_title: "Bonds",
  no_bonds: "There are no bonds yet. Type one, open an inventory, or paste columns from a spreadsheet.",
  filter_label: "Filter",
  note_label: "Note",
  owner_shown_label: "Owner",
  sort_label: "Sort by",
  all: "All",
  no_note: "None",
  shown: (count, all) => (count === all ? `${bonds(all)}.` : `${bonds(count)} of ${all.toLocaleString("en-US")}.`),
  sorted: (column, is_falling) => `Sorted by ${column}, ${is_falling ? "highest first" : "lowest first"}.`,
  sort_choice: (column, is_falling) => `${column}, ${is_falling ? "highest first" : "lowest first"}`,
  columns: { serial: "Serial", series: "Series", denom: "Denom", issued: "Issued", next: "Next", final: "Final", price: "Price", interest: "Interest", rate: "Rate", value: "Value", note: "Note" },
  column_names: { serial: "serial number", series: "series", denom: "denomination", issued: "issue date", next: "next accrual", final: "final maturity", price: "issue price", interest: "interest", rate: "interest rate", value: "value", note: "note" },
  notes: NOTES,
  total_row: "Total",
  save_inventory: "Save the inventory",
  save_table: "Save this table (CSV)",
  save_sheet: "Save this sheet (text)",
  print: "Print",
  remove_all: "Remove all bonds",
  keep_label: "Keep the inventory and the rates in this browser",
  kept: "The inventory is kept in this browser. A browser may delete what pages keep, so save it as a file too.",
  keep_state: { kept: "Kept in this browser.", waiting: "Saving .." },
  not_kept: "Nothing is kept any more. Save the inventory before you close the page.",
  keep_failed: "This browser refuses to keep the inventory. What it kept before stays as it is. Save the inventory as a file.",
  taken_up: (count) => `${bonds(count)}, kept by an earlier visit.`,
  kept_unread: "This browser doesn't let the page read what an earlier visit kept. If anything was kept, it stays as it is.",
  kept_unreadable: (why) => `The page can't read what an earlier visit kept, and leaves it as it is. ${why}`,
  kept_incomplete: "The inventory or the rates are missing.",
  left_save: "Save what was kept as a file",
  left_help: "An earlier visit kept something in this browser that the page can't read. It stays there until you keep the bonds of this page and agree to replace it.",
  ask_replace: "What an earlier visit kept can't be read. Replace it with the bonds on this page?",
  keep_ended: "Nothing is kept any more: another tab of this page ended it, or the browser's data was cleared. Tick the box to keep the bonds again, or save the inventory before you close the page.",
  keep_conflict: (why) => `Another tab of this page kept other bonds or rates, which stay as they are. What this tab changed isn't kept: save the inventory as a file. ${why}`,
  save_unnumbered: "A bond without a serial number is saved as #1, #2 and so on, which only this page reads.",
  save_long: "The file is longer than 1,048,576 bytes, so neither this page nor the counter opens it. To read it here again, copy its text and paste it.",
  save_help: (count) => (count > 500 ? `The counter's import takes 500 bonds from one file. clients/counter.py registers all ${count.toLocaleString("en-US")} from this one.` : "The saved inventory opens here again, and the counter imports it."),
  saved: (name) => `Saved as ${name}.`,
  skip_table: "Skip the table",

  curve_title: "Value of the inventory over the years",
  curve_says: (points) => `The inventory's value from ${month(points[0].month)} to ${month(points.at(-1).month)}. It ends at ${dollarsText(points.at(-1).cents)}. The table has every year.`,
  curve_table: "The same as a table",
  curve_month: "Month",
  curve_value: "Value",
  now: "value month",

  rates_title: "Rates",
  rates_told: (count, is_shipped) => `${counted(count, "period", "periods")}, ${is_shipped ? "as this page ships them. A bank compares each with the Treasury's announcement." : "changed on this page."}`,
  rates_summary: "Show the rates",
  rate_label: "Open rates (CSV file)",
  rate_help: "The header is from,rate or from,rate,extension. The extension is the rate of the years 21 to 30; empty, it is the fixed rate.",
  alone_label: "Use that file's rates alone",
  shipped_button: "Use the shipped rates",
  save_rates: "Save the rates",
  rates_added: (count) => `${counted(count, "rate", "rates")} read.`,
  rates_shipped: "The shipped rates are in use again.",
  rates_kept: "The rates stay as they were.",
  rate_columns: ["Issued from", "Fixed rate", "Years 21 to 30"],

  bond_title: (serial) => `Bond ${serial}`,
  facts: {
    bond: (it) => `$${it.denom.toLocaleString("en-US")}, issued ${month(it.issued)}`,
    value: (value, text, note) => `${text} in ${month(value)}${note === "" ? "" : `: ${note}`}`,
    names: { bond: "Bond", value: "Value", rate: "Rate", owner: "Owner", remark: "To check" },
    owner: (it) => `customer ${it.owner}${it.coowner === undefined ? "" : `, coowner ${it.coowner}`}`,
    rates: (fixed, extended) => (fixed === extended ? fixed : `${fixed}, and ${extended} in the years 21 to 30`),
  },
  ahead_title: "What it will be worth",
  ahead_columns: ["When", "Month", "Value"],
  ahead: {
    issued: "It is issued",
    next: "Interest is next added",
    payable: "It can be cashed, 12 months old",
    penalty: "The penalty ends, 5 years old",
    doubles: "It is worth twice its price at least, 20 years old",
    matures: "Final maturity, 30 years old",
  },
  ahead_none: "Its value no longer changes: the bond earns no more interest.",
  bond_curve_title: "Its value over 30 years",
  bond_curve_says: (serial, points) => `The value of bond ${serial} from ${dollarsText(points[0].cents)} in ${month(points[0].month)} to ${dollarsText(points.at(-1).cents)} in ${month(points.at(-1).month)}. The table has every year.`,
  remove_bond: "Remove this bond",

  about_title: "What is proved, and what isn't",
  about: [
    "Every value comes from a small program, the module. Every function of it is proved: for every denomination, month and rate it gives the value by the rules of 31 CFR Part 351, to the cent.",
    "Not proved are this page, which reads your entries and shows the module's answers, and the browser. Nor is the step that makes the 32-bit module from the proved 64-bit one. All this is tested against the counter's program and the Treasury's published values.",
    "Nothing proves that these rates are the Treasury's. Compare them before you rely on a value.",
    "A value here is no promise of payment. The page doesn't know which bonds exist, were lost or were cashed.",
    "Everything stays on this device. The page asks no other server, and has no cookies.",
  ],
  module_label: "Module",
  modules: { 64: "64 bits, as it was proved", 32: "32 bits, lowered from it" },
  module_told: (bits, version) => `In use: the module of ${bits} bits, version ${Math.floor(version / 10000)}.${Math.floor(version / 100) % 100}.${version % 100}.`,
  module_missing: "This browser can't run the module of 64 bits. The one of 32 bits is in use.",
  module_failed: "The module can't be started in this browser, so there are no values.",

  files: { inventory: "inventory.csv", kept: "kept.txt", table: (value) => `bonds-${monthText(value)}.csv`, sheet: (value) => `sheet-${monthText(value)}.txt`, rates: "rates.csv" },
  month,
};

export const TEXTS = EN;
