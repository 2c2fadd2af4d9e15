// A customer who walks in with bonds that aren't registered. The teller types them from the paper, each is valued by the counter, and then the page registers and pays them: two requests, the second of
// which is in the journal with the first.

import { byId, element, show } from "./elements.js";
import { isWithoutDoubt } from "./doubts.js";
import { button, onSubmit, readFields, unmark } from "./forms.js";
import { announce, clearNoted, notice } from "./notices.js";
import { askValue } from "./queries.js";
import { confirmed } from "./question.js";
import { bondsOf } from "./receipts.js";
import { isTwice, takeScans, takeWaiting } from "./scans.js";
import { isPayable } from "./sheet.js";
import { monthOf, readCustomer } from "./spelling.js";
import { monthAsPrinted, readIssueMonth, typedDenomination, typedIssue, typedSerial } from "./typed.js";
import { bondList, MOST_BONDS, noteSent } from "./view_pay.js";
import { goTo } from "./views.js";
import { ENTER, moneyInWords, PAY, SHEET, WALK_IN } from "./words.js";

const BOND_FIELDS = ["walkin-serial", "walkin-denom", "walkin-issued"];
const CUSTOMER_FIELDS = ["walkin-owner", "walkin-coowner", "walkin-payee"];

// The groups whose acts a walk-in takes.
const GROUPS = ["teller", "registrar"];

// The month in which bonds are paid now, or null; whether the user may not do it; and what was typed, by serial number: rows as those of a sheet.
const shown = { month: null, is_barred: false, bonds: new Map() };

function isOffered() {
  return shown.month !== null && !shown.is_barred;
}

function typedBonds() {
  return [...shown.bonds.values()];
}

function sumOf(bonds) {
  return bonds.reduce((cents, bond) => cents + bond.value, 0n);
}

// ---- what was typed

function bondRow(bond) {
  const remove = button(PAY.remove(bond.serial), () => {
    shown.bonds.delete(bond.serial);
    showBonds();
    byId("walkin-serial").focus();
  });
  const texts = WALK_IN.bond_line(bond).map((text) => element("span", {}, text));
  return element("li", {}, ...texts.flatMap((text) => [text, " "]), remove);
}

function showBonds() {
  const bonds = typedBonds();
  byId("walkin-bonds").replaceChildren(...(bonds.length === 0 ? [] : [element("ul", { "aria-label": WALK_IN.typed }, ...bonds.map(bondRow))]));
  byId("walkin-sum").textContent = moneyInWords(sumOf(bonds));
  byId("walkin-count").textContent = bonds.length === 0 ? WALK_IN.none : PAY.chosen(bonds.length, shown.month);
  byId("walkin-button").textContent = bonds.length === 0 ? WALK_IN.act : WALK_IN.act_on(sumOf(bonds));
  show(byId("pay-walkin"), isOffered() && bonds.length > 0);
}

// Enter in one field leads to the next, as long as that is empty: a scanner sends Enter too. In the empty form it leads from the bonds to their owner. Whether it did.
function ledOn() {
  const at = /** @type {HTMLInputElement} */ (document.activeElement);
  if (shown.bonds.size > 0 && BOND_FIELDS.every((id) => byId(id).value.trim() === "")) {
    byId(isTwice() ? "walkin-serial" : "walkin-owner").focus();
    return true;
  }
  const next = byId(BOND_FIELDS[BOND_FIELDS.indexOf(at.id) + 1]);
  const leads_on = BOND_FIELDS.includes(at.id) && at.value.trim() !== "" && next !== null && next.value.trim() === "";
  if (leads_on) next.focus();
  return leads_on;
}

async function add(app) {
  if (ledOn()) return;
  const issued = [byId("walkin-issued"), typedIssue, ENTER.issue_month];
  const fields = readFields([byId("walkin-serial"), typedSerial, ENTER.serial], [byId("walkin-denom"), typedDenomination, ENTER.denomination], issued);
  if (fields === null) return;
  const [serial] = fields;
  clearNoted();
  if (shown.bonds.has(serial)) notice("noted", WALK_IN.already(serial));
  else if (shown.bonds.size >= MOST_BONDS) notice("noted", PAY.too_many(MOST_BONDS));
  else await addValued(app, shown.month, ...fields);
}

// Adds a bond with its value in the month of the open day, which the counter tells of a bond that isn't registered too.
async function addValued(app, month, serial, denom, issued) {
  const row = await app.lookUp((signal) => askValue(denom, issued, month, signal));
  if (row.kind !== "value") app.tellUnanswered(row);
  else if (month !== shown.month) notice("noted", PAY.day_changed, PAY.add_again);
  else if (!isPayable(row)) notice("noted", PAY.not_payable(serial, month, row.note));
  else addRow({ ...row, serial, issued: monthAsPrinted(issued) });
}

function addRow(bond) {
  shown.bonds.set(bond.serial, bond);
  for (const id of BOND_FIELDS) byId(id).value = "";
  showBonds();
  byId("walkin-serial").focus();
  announce(`${WALK_IN.bond_line(bond).join(", ")}. ${PAY.chosen(shown.bonds.size, shown.month)}, ${moneyInWords(sumOf(typedBonds()))}`);
  takeWaiting();
}

// The first scan that waits is the next bond's. The others wait for theirs.
function canTake() {
  return byId("walkin-serial").checkVisibility() && byId("walkin-serial").value.trim() === "";
}

function take([text]) {
  byId("walkin-serial").value = text;
  byId("walkin-denom").focus();
  return 1;
}

// ---- registering and paying

// 0 if there is none.
function readCoowner(text) {
  if (text.trim() === "") return 0;
  const coowner = readCustomer(text);
  return coowner === readCustomer(byId("walkin-owner").value) ? null : coowner;
}

// The owner or the coowner; 0 if nobody is named, which is the owner.
function readPayee(text) {
  if (text.trim() === "") return 0;
  const payee = readCustomer(text);
  return payee === readCustomer(byId("walkin-owner").value) || payee === readCoowner(byId("walkin-coowner").value) ? payee : null;
}

async function pay(app) {
  const bonds = typedBonds();
  const fields = readFields([byId("walkin-owner"), readCustomer, ENTER.customer], [byId("walkin-coowner"), readCoowner, ENTER.coowner], [byId("walkin-payee"), readPayee, ENTER.walk_in_payee]);
  if (fields === null || bonds.length === 0) return;
  const [owner, coowner, named] = fields;
  const payee = named === 0 ? owner : named;
  const { day } = app.record;
  const sum = sumOf(bonds);
  const lines = [WALK_IN.owners(owner, coowner), PAY.pay_lines(bonds.length, day, sum), bondList(bonds), element("p", { class: "help" }, PAY.window)];
  if (!(await isWithoutDoubt(day, bonds, sum))) return;
  if (!(await confirmed(WALK_IN.title(bonds.length, sum, payee), lines, WALK_IN.act_to(sum, payee)))) return;
  noteSent();
  const rows = bonds.map(({ serial, denom, issued }) => ({ serial, denom: Number(denom), issued: readIssueMonth(issued), owner, ...(coowner === 0 ? {} : { coowner }) }));
  const payment = { path: "/redeem", fields: { day, payee, serials: bonds.map((bond) => bond.serial) }, shown: sum.toString(), bonds: bondsOf(bonds) };
  await app.act("/bonds", { bonds: rows }, { then: payment });
}

// ---- what stays

// Leaves nothing of a customer in the view.
export function clearWalkIn() {
  shown.bonds.clear();
  for (const id of [...BOND_FIELDS, ...CUSTOMER_FIELDS]) {
    byId(id).value = "";
    unmark(byId(id));
  }
  showBonds();
}

// Follows the day that the page works on. In another month the bonds have other values, so what was typed goes.
export function followWalkIn(app) {
  const month = app.record.day === null ? null : monthOf(app.record.day);
  if (month !== shown.month) {
    shown.month = month;
    clearWalkIn();
  }
  showForms();
}

export function enterWalkIn(app) {
  followWalkIn(app);
  takeWaiting();
}

function showForms() {
  show(byId("walkin-barred"), shown.is_barred);
  show(byId("walkin-no-day"), shown.month === null && !shown.is_barred);
  show(byId("add-walkin"), isOffered());
  showBonds();
}

// Offers a walk-in to a user who may register and pay, and to all if the groups aren't known.
export function offerWalkIn(groups) {
  shown.is_barred = groups !== null && !GROUPS.every((group) => groups.includes(group));
  show(byId("walkin-link"), !shown.is_barred);
  showForms();
}

// Leads to the next customer.
export function focusWalkIn() {
  goTo("walkin", "walkin-serial");
}

export function startWalkIn(app) {
  onSubmit(byId("add-walkin"), () => add(app));
  onSubmit(byId("pay-walkin"), () => pay(app));
  takeScans(canTake, take);
  showForms();
}
