// What bonds are worth over time: the months that matter to a bond, and curves. Every value is an answer of the library; a curve of several
// bonds adds answers up.

import { questionOf, rowsAt } from "./rows.js";
import { LAST_MONTH } from "./spelling.js";

export const FIRST_PAYABLE = 12;
export const PENALTY_ENDS = 60;
export const DOUBLES = 240;
export const MATURES = 360;

// The months after `month` in which something changes for a bond, in order, each with its row.
export function milestonesOf(library, rates, bond, month) {
  const named = [
    ["issued", bond.issued],
    ["next", month + 1],
    ["payable", bond.issued + FIRST_PAYABLE],
    ["penalty", bond.issued + PENALTY_ENDS],
    ["doubles", bond.issued + DOUBLES],
    ["matures", bond.issued + MATURES],
  ];
  const is_earning = month >= bond.issued && month < bond.issued + MATURES;
  const ahead = named.filter(([name, at]) => at > month && at <= LAST_MONTH && (name !== "next" || is_earning));
  return ahead.sort((one, other) => one[1] - other[1]).map(([name, at]) => ({ name, month: at, row: rowsAt(library, rates, [bond], at)[0] }));
}

// The value of one bond in every month of its 30 years.
export function curveOf(library, rates, bond) {
  const months = Array.from({ length: MATURES + 1 }, (_, age) => bond.issued + age);
  const answers = library.rows(months.map((month) => questionOf(rates, bond, month)));
  return months.map((month, place) => ({ month, cents: answers[place].valueCents }));
}

// The units of 25 dollars by issue month. A bond is worth its units times the value of one unit, so one curve serves all bonds of a month.
function issuesOf(bonds) {
  const issues = new Map();
  for (const bond of bonds) issues.set(bond.issued, (issues.get(bond.issued) ?? 0) + bond.denom / 25);
  return issues;
}

// The value of all bonds together, every `step` months from the first issue month to the last final maturity.
export function inventoryCurve(library, rates, bonds, step = 3) {
  if (bonds.length === 0) return [];
  const issues = issuesOf(bonds);
  const [first, last] = [Math.min(...issues.keys()), Math.max(...issues.keys()) + MATURES];
  const months = Array.from({ length: Math.ceil((last - first) / step) + 1 }, (_, place) => Math.min(first + place * step, last));
  const sums = months.map(() => 0);
  for (const [issued, units] of issues) addIssue(library, rates, { issued, units }, months, sums);
  return months.map((month, place) => ({ month, cents: sums[place] }));
}

// Adds the bonds of one issue month, asked for as 100-dollar bonds, which have 4 units. From final maturity on the value stays.
function addIssue(library, rates, { issued, units }, months, sums) {
  const bond = { denom: 100, issued };
  const asked = months.map((month) => Math.min(month, issued + MATURES));
  const from = asked.findIndex((month) => month >= issued);
  const answers = library.rows(asked.slice(from).map((month) => questionOf(rates, bond, month)));
  answers.forEach((answer, place) => {
    sums[from + place] += (answer.valueCents / 4) * units;
  });
}
