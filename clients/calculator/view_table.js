// The table of bonds, with its filter and order, and what is saved of it.

import { byId, options } from "./elements.js";
import { MOST_BYTES, writeInventory } from "./files.js";
import { isKept } from "./keeping.js";
import { tell } from "./notices.js";
import { COLUMNS, totalsOf } from "./rows.js";
import { saveFile } from "./saving.js";
import { sheetCsv, sheetText } from "./sheet.js";
import { allRows, change, shownRows, state } from "./state.js";
import { BondTable } from "./table.js";
import { TEXTS } from "./texts.js";
import { openBond } from "./view_bond.js";
import { sortedBonds } from "./books.js";
import { isUnnumbered } from "./spelling.js";

let table = null;
const ANY = "any";
const PLAIN = "plain";

function owners() {
  return [...new Set(allRows().map((row) => row.bond.owner))].sort((one, other) => one - other);
}

// Short inventories aren't written to see how long they are: a line has at most 48 characters.
function saveHelp(count) {
  const is_long = 48 * (count + 1) > MOST_BYTES && inventoryNow().length > MOST_BYTES;
  const is_unnumbered = [...state.books.bonds.keys()].some(isUnnumbered);
  return [TEXTS.save_help(count), ...(is_unnumbered ? [TEXTS.save_unnumbered] : []), ...(is_long ? [TEXTS.save_long] : [])].join(" ");
}

export function showTable() {
  const count = allRows().length;
  const rows = shownRows();
  byId("no-bonds").hidden = count > 0;
  byId("with-bonds").hidden = count === 0;
  options(byId("owner-shown"), [[ANY, TEXTS.all], ...owners().map((owner) => [owner, String(owner)])], state.filter.owner ?? ANY);
  byId("owner-field").hidden = owners().length < 2 && state.filter.owner === null;
  byId("sort").value = `${state.sort.column} ${state.sort.is_falling}`;
  byId("shown").textContent = `${TEXTS.shown(rows.length, count)} ${TEXTS.sorted(TEXTS.column_names[state.sort.column], state.sort.is_falling)}`;
  byId("save-help").textContent = saveHelp(count);
  table.show(rows, totalsOf(rows), state.sort);
}

function sortBy(column) {
  change({ sort: { column, is_falling: state.sort.column === column && !state.sort.is_falling } });
}

function filter() {
  const [note, owner] = [byId("note").value, byId("owner-shown").value];
  const chosen = { note: note === ANY ? null : note === PLAIN ? "" : note, owner: owner === ANY ? null : Number(owner) };
  change({ filter: { words: byId("filter").value, ...chosen } });
}

function saved(name, text, type) {
  saveFile(name, text, type);
  tell(TEXTS.saved(name));
}

const inventoryNow = () => writeInventory(sortedBonds(state.books.bonds));

function saveInventory() {
  saved(TEXTS.files.inventory, inventoryNow(), "text/csv");
  state.is_saved = true;
}

function saveRows(name, write, type) {
  const rows = shownRows();
  saved(name(state.month), write(rows, totalsOf(rows)), type);
}

function removeAll() {
  const count = allRows().length;
  if (!confirm(TEXTS.ask_remove_all(count))) return;
  change({ books: { ...state.books, bonds: new Map() }, filter: { words: "", note: null, owner: null }, is_saved: true });
  byId("filter").value = "";
  byId("note").value = ANY;
  tell(TEXTS.removed_all(count));
  byId("serial").focus();
}

function warnUnsaved(event) {
  if (!state.is_saved && !isKept()) event.preventDefault();
}

function choices() {
  const notes = Object.entries(TEXTS.notes).filter(([note]) => note !== "").map(([note, words]) => [note, `${note}: ${words}`]);
  options(byId("note"), [[ANY, TEXTS.all], ...notes, [PLAIN, TEXTS.no_note]], ANY);
  const orders = COLUMNS.filter((column) => column !== "series").flatMap((column) => [false, true].map((is_falling) => [`${column} ${is_falling}`, TEXTS.sort_choice(TEXTS.column_names[column], is_falling)]));
  options(byId("sort"), orders);
}

export function beginTable() {
  table = new BondTable(byId("table"), { opens: openBond, sorts: sortBy });
  choices();
  for (const name of ["filter", "note", "owner-shown"]) byId(name).addEventListener("input", filter);
  byId("filter-form").addEventListener("submit", (event) => event.preventDefault());
  byId("sort").addEventListener("input", () => {
    const [column, is_falling] = byId("sort").value.split(" ");
    change({ sort: { column, is_falling: is_falling === "true" } });
  });
  byId("save-inventory").addEventListener("click", saveInventory);
  byId("save-table").addEventListener("click", () => saveRows(TEXTS.files.table, sheetCsv, "text/csv"));
  byId("save-sheet").addEventListener("click", () => saveRows(TEXTS.files.sheet, sheetText, "text/plain"));
  byId("print").addEventListener("click", () => print());
  byId("remove-all").addEventListener("click", removeAll);
  addEventListener("beforeunload", warnUnsaved);
}
