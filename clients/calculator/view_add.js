// The value of a bond as it is typed, and adding it; and bonds of an inventory file.

import { addRows } from "./adding.js";
import { termsOf } from "./books.js";
import { byId, options, write } from "./elements.js";
import { INVENTORY, MOST_BYTES, readInventory } from "./files.js";
import { isNoSerial, looseDenom, looseIssue, looseSerial, plain } from "./loose.js";
import { tellFault } from "./notices.js";
import { remarkOn } from "./remarks.js";
import { rowsAt } from "./rows.js";
import { DENOMINATIONS, dollarsText, readCustomer } from "./spelling.js";
import { state } from "./state.js";
import { TEXTS } from "./texts.js";
import { underBar } from "./turns.js";
import { beginPasting, understandFile } from "./view_paste.js";

const BAD_VALUE = 72;
// A file of more bytes is read under a bar.
const LONG = 40_000;

// By field: the value of what was typed, or null.
const READERS = {
  serial: (text) => (isNoSerial(text) ? undefined : looseSerial(text)),
  denom: looseDenom,
  issued: looseIssue,
  owner: readCustomer,
  coowner: (text) => (text === "" ? undefined : readCustomer(text)),
};

function typedBond() {
  const values = {};
  for (const column of INVENTORY) {
    const text = plain(byId(column).value);
    values[column] = READERS[column](text);
    if (values[column] === null) return { fault: { code: BAD_VALUE, column, text } };
  }
  return { values: { ...values, serial: values.serial ?? null } };
}

function rowOf(denom, issued) {
  try {
    return rowsAt(state.library, state.books.rates, [{ serial: "#1", denom, issued }], state.month)[0];
  } catch (failure) {
    if (failure.serial === undefined) throw failure;
    return null;
  }
}

const typedSerial = () => looseSerial(plain(byId("serial").value));

// Shows what a bond of the typed denomination and issue month is worth in the value month, and what to compare with its paper.
export function showOne() {
  const [denom, issued] = [looseDenom(byId("denom").value), looseIssue(plain(byId("issued").value))];
  const remark = denom === null ? "" : remarkOn({ serial: typedSerial(), denom, issued });
  const is_whole = denom !== null && issued !== null;
  const is_rated = is_whole && termsOf(state.books.rates, issued) !== undefined;
  const row = is_rated ? rowOf(denom, issued) : null;
  const told = row !== null ? TEXTS.one_says(row, state.month) : is_whole && !is_rated ? TEXTS.one_unrated(issued) : TEXTS.one_hint;
  write(byId("one-value"), row === null ? "" : dollarsText(row.cents.value));
  write(byId("one-words"), `${told} ${remark}`.trimEnd());
}

function markFault(fault) {
  for (const name of INVENTORY) byId(name).setAttribute("aria-invalid", String(fault?.column === name));
  if (fault === undefined) return;
  const field = byId(fault.column);
  const details = field.closest("details");
  if (details !== null) details.open = true;
  field.focus();
}

function addTyped(event) {
  event.preventDefault();
  const { values, fault } = typedBond();
  markFault(fault);
  if (fault !== undefined) {
    tellFault(TEXTS.typed_fault(fault));
    return;
  }
  if (!addRows({ rows: [values], faults: [] })) return;
  byId("serial").value = "";
  showOne();
  byId("serial").focus();
}

// Adds an inventory. A file with faults is read as a pasted list, since a spreadsheet or this page's table may have written it.
function addBytes(bytes) {
  const read = readInventory(bytes);
  const is_list = read.faults.length > 0 && bytes.length <= MOST_BYTES && understandFile(new TextDecoder().decode(bytes));
  if (!is_list) addRows(read, true);
}

async function addFile(event) {
  const [file] = event.target.files;
  if (file === undefined) return;
  try {
    const bytes = new Uint8Array(await file.arrayBuffer());
    if (bytes.length < LONG) addBytes(bytes);
    else await underBar(() => addBytes(bytes));
  } catch (failure) {
    if (!(failure instanceof DOMException)) throw failure;
    tellFault(TEXTS.unreadable(file.name));
  }
  event.target.value = "";
}

export function beginAdding() {
  options(byId("denom"), [["", TEXTS.denom_choose], ...DENOMINATIONS.map((dollars) => [dollars, `$${dollars.toLocaleString("en-US")}`])], "");
  byId("type-form").addEventListener("submit", addTyped);
  for (const name of ["denom", "issued", "serial"]) byId(name).addEventListener("input", showOne);
  byId("inventory-file").addEventListener("change", addFile);
  beginPasting();
}
