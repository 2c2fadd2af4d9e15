// The value month, and the sums of all bonds.

import { byId, element } from "./elements.js";
import { tell, tellFault } from "./notices.js";
import { totalsOf } from "./rows.js";
import { looseMonth, plain } from "./loose.js";
import { dollarsText, monthText, readMonth, sheetMonthText } from "./spelling.js";
import { allRows, change, state, totalsIn } from "./state.js";
import { TEXTS } from "./texts.js";

const isPayable = (row) => row.texts.note !== "NI" && row.texts.note !== "NE";

// The interest since December of the year before.
function interestOfYear(totals) {
  const december = 12 * Math.floor(state.month / 12) - 1;
  return totals.interest - (readMonth(monthText(december)) === null ? 0 : totalsIn(december).interest);
}

function sums(rows, totals) {
  const unpayable = rows.filter((row) => !isPayable(row));
  const told = [
    [TEXTS.sums.price, dollarsText(totals.price)],
    [TEXTS.sums.interest, dollarsText(totals.interest)],
    [TEXTS.sums.year(state.month), TEXTS.year_interest(interestOfYear(totals), state.month)],
    [TEXTS.sums.payable, `${dollarsText(totalsOf(rows.filter(isPayable)).value)}, ${TEXTS.not_payable(unpayable.length)}`],
  ];
  if (readMonth(monthText(state.month + 1)) === null) return told;
  const next = totalsIn(state.month + 1).value;
  return [...told, [TEXTS.sums.next(state.month + 1), `${dollarsText(next)}, ${TEXTS.more(next - totals.value)}`]];
}

let shown = null;

// The order and the filter of the table change nothing here.
export function showSummary() {
  const rows = allRows();
  if (rows === shown) return;
  shown = rows;
  const totals = totalsOf(rows);
  byId("month").value = sheetMonthText(state.month);
  byId("total-name").textContent = TEXTS.total_name(rows.length, state.month);
  byId("total").textContent = rows.length === 0 ? "" : dollarsText(totals.value);
  const told = rows.length === 0 ? [] : sums(rows, totals);
  byId("sums").replaceChildren(...told.flatMap(([name, text]) => [element("dt", {}, name), element("dd", {}, text)]));
}

function choose(text) {
  const month = looseMonth(plain(text));
  byId("month").setAttribute("aria-invalid", String(month === null));
  if (month === null) {
    tellFault(TEXTS.month_bad(text));
    byId("month").focus();
    return;
  }
  change({ month });
  tell(TEXTS.month_shown(month));
}

export function beginSummary() {
  byId("month-form").addEventListener("submit", (event) => {
    event.preventDefault();
    choose(byId("month").value);
  });
  byId("month-back").addEventListener("click", () => choose(monthText(state.month - 1)));
  byId("month-on").addEventListener("click", () => choose(monthText(state.month + 1)));
}
