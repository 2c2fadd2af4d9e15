// One bond in a dialog: what it is worth, what it will be worth, and its value over 30 years.

import { termsOf, withoutBond } from "./books.js";
import { Chart } from "./chart.js";
import { byId, element, table } from "./elements.js";
import { tell } from "./notices.js";
import { remarkOn } from "./remarks.js";
import { dollarsText, rateText } from "./spelling.js";
import { change, state } from "./state.js";
import { TEXTS } from "./texts.js";
import { curveOf, DOUBLES, FIRST_PAYABLE, MATURES, milestonesOf, PENALTY_ENDS } from "./timeline.js";

let chart = null;
let opened = null;

function facts(row) {
  const { bond, texts } = row;
  const { rate, extension } = termsOf(state.books.rates, bond.issued);
  const told = {
    bond: TEXTS.facts.bond(bond),
    value: TEXTS.facts.value(state.month, dollarsText(row.cents.value), TEXTS.notes[texts.note]),
    rate: TEXTS.facts.rates(rateText(rate), rateText(extension)),
    owner: TEXTS.facts.owner(bond),
    remark: remarkOn(bond),
  };
  return Object.entries(told).filter(([, text]) => text !== "").flatMap(([name, text]) => [element("dt", {}, TEXTS.facts.names[name]), element("dd", {}, text)]);
}

function ahead(bond) {
  const list = milestonesOf(state.library, state.books.rates, bond, state.month);
  if (list.length === 0) return element("p", {}, TEXTS.ahead_none);
  const rows = list.map((one) => [TEXTS.ahead[one.name], TEXTS.month(one.month), dollarsText(one.row.cents.value)]);
  return element("table", { class: "small", "aria-labelledby": "ahead-title" }, ...table("", TEXTS.ahead_columns, rows));
}

export function openBond(row) {
  opened = row.bond;
  byId("bond-title").textContent = TEXTS.bond_title(opened.serial);
  byId("bond-facts").replaceChildren(...facts(row));
  byId("bond-ahead").replaceChildren(ahead(opened));
  byId("bond").showModal();
  chart ??= new Chart(byId("bond-figure"));
  const points = curveOf(state.library, state.books.rates, opened);
  const marked = [FIRST_PAYABLE, PENALTY_ENDS, DOUBLES, MATURES].map((age) => opened.issued + age);
  chart.show(points, { label: TEXTS.bond_curve_says(opened.serial, points), caption: TEXTS.bond_title(opened.serial), now: state.month, marked });
}

export function beginBond() {
  byId("bond-remove").addEventListener("click", () => {
    byId("bond").close();
    change({ books: withoutBond(state.books, opened.serial), is_saved: false });
    tell(TEXTS.removed(opened.serial));
  });
}
