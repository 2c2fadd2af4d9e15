// What the page works on, and its changes. Whoever shows it subscribes; after every change all of it is shown anew.

import { NO_BOOKS, sortedBonds } from "./books.js";
import { filteredRows, rowsAt, sortedRows, totalsAt } from "./rows.js";

export const state = {
  library: null,
  bits: 64,
  books: NO_BOOKS,
  month: 0,
  sort: { column: "serial", is_falling: false },
  filter: { words: "", note: null, owner: null },
  is_shipped: true,
  is_saved: true,
};

const watchers = [];
let rows = [];

export function watch(watcher) {
  watchers.push(watcher);
}

// The rows of all bonds in the value month, in the order of serial numbers.
export function allRows() {
  return rows;
}

export function shownRows() {
  return sortedRows(filteredRows(rows, state.filter), state.sort.column, state.sort.is_falling);
}

// Takes over changes. If a value can't be told, it throws that Refused, and nothing changes.
export function change(changes) {
  const next = { ...state, ...changes };
  const is_same = next.library === state.library && next.books === state.books && next.month === state.month;
  const next_rows = is_same ? rows : rowsAt(next.library, next.books.rates, sortedBonds(next.books.bonds), next.month);
  Object.assign(state, changes);
  rows = next_rows;
  for (const watcher of watchers) watcher();
}

// Takes over changes. Returns null, or the library's failure, with the serial number of the bond that it has no value for.
export function changeIfSettled(changes) {
  try {
    change(changes);
    return null;
  } catch (failure) {
    if (failure.serial === undefined) throw failure;
    return failure;
  }
}

// The value of all bonds in another month.
export function totalsIn(month) {
  return totalsAt(state.library, state.books.rates, [...state.books.bonds.values()], month);
}
