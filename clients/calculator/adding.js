// Adds rows that were read to the bonds of the page, all or none.

import { withBonds } from "./books.js";
import { tell, tellFault, tellFaults } from "./notices.js";
import { remarksOn } from "./remarks.js";
import { changeIfSettled, state } from "./state.js";
import { TEXTS } from "./texts.js";

/** Adds rows. Returns whether they were added. `is_saved` says that they come from a file. */
export function addRows({ rows, faults }, is_saved = false) {
  if (faults.length > 0) {
    tellFaults(faults);
    return false;
  }
  const done = withBonds(state.books, rows);
  if (done.refusal !== undefined) {
    tellFault(`${TEXTS.nothing_added} ${TEXTS.refusal(done.refusal)}`);
    return false;
  }
  const is_untouched = is_saved && state.books.bonds.size === 0;
  const failure = changeIfSettled({ books: done.books, is_saved: done.added === 0 ? state.is_saved : is_untouched });
  if (failure !== null) {
    tellFault(`${TEXTS.nothing_added} ${TEXTS.unvalued(failure)}`);
    return false;
  }
  const { told, lines } = remarksOn(done.rows, (row) => TEXTS.bond_title(row.serial));
  tell(`${TEXTS.added(done.added, done.same, done.books.bonds.size)} ${told}`.trimEnd(), lines);
  return true;
}
