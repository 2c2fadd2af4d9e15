// A customer's sheet, the bonds that are chosen, and their payment.
//
// A bond is paid at its value in the month of the day that the page works on. So bonds are chosen only on a sheet of that month, and when another month's day begins, or the day ends,
// nothing that was chosen stays: the sum that the teller confirms is the sum that is paid.

import { isWithoutDoubt } from "./doubts.js";
import { byId, element, show } from "./elements.js";
import { filtered } from "./filter.js";
import { button, onSubmit, readFields, unmark } from "./forms.js";
import { clearHand, found, miss, showHand, startHand, whyMissed } from "./hand.js";
import { announce, clearNoted, notice } from "./notices.js";
import { askSheet } from "./queries.js";
import { confirmed } from "./question.js";
import { bondsOf } from "./receipts.js";
import { leadTo, takeScans, takeWaiting } from "./scans.js";
import { isPaid, isPayable } from "./sheet.js";
import { legend, SheetTable, unpaidRows } from "./sheet_table.js";
import { monthOf, readCustomer, today } from "./spelling.js";
import { readMonth, readSerial, typedSerial } from "./typed.js";
import { goTo } from "./views.js";
import { ENTER, HAND, moneyInWords, namesInWords, PAY, SHEET, TEXTS } from "./words.js";

export const MOST_BONDS = 100;

// A screen reader hears of a filter once nothing was typed for this many milliseconds.
const TYPED = 500;

// The month in which bonds are paid now, or null; the sheet that is shown, its table, and its rows that the filter leaves; and the bonds that are chosen, each once, by its serial number: the rows of the
// sheet, and (`is_added`) of other ones. What was scanned, by serial number, or by its text if that is none; and whether the sheet has the columns that a payment doesn't need.
const shown = { month: null, sheet: null, table: null, rows: [], chosen: new Map(), scans: new Set(), has_all_columns: false };

// The look-up of a sheet that is under way, or null: scans wait for that sheet.
let asks = null;

// What was chosen and typed when the last payment was sent.
let sent = null;

function chosenBonds() {
  return [...shown.chosen.values()];
}

function addedBonds() {
  return chosenBonds().filter((bond) => bond.is_added);
}

function sumOf(bonds) {
  return bonds.reduce((cents, bond) => cents + bond.value, 0n);
}

function canChoose() {
  return shown.sheet !== null && shown.sheet.month === shown.month;
}

function payableRows() {
  return canChoose() ? shown.sheet.rows.filter(isPayable) : [];
}

// ---- the sum, and the button that pays it

function chosenInWords(bonds) {
  if (bonds.length === 0) return PAY.none_chosen;
  const more = bonds.length > MOST_BONDS ? ` ${PAY.too_many(MOST_BONDS)}` : "";
  return PAY.chosen(bonds.length, shown.month) + more;
}

function payButtonText(bonds) {
  const payee = readCustomer(byId("payee").value);
  if (bonds.length === 0) return PAY.pay;
  return payee === null ? PAY.pay_sum(sumOf(bonds)) : PAY.pay_to(sumOf(bonds), payee);
}

// Without a day, or without a bond that can be paid, there is nothing to press.
function showChosen() {
  const bonds = chosenBonds();
  byId("sum").textContent = moneyInWords(sumOf(bonds));
  byId("chosen").textContent = chosenInWords(bonds);
  byId("chosen-names").textContent = namesInWords([...shown.chosen.keys()].reverse(), 2);
  byId("pay-button").textContent = payButtonText(bonds);
  show(byId("no-day"), shown.month === null);
  show(byId("add-bond"), shown.month !== null);
  showHand(canChoose());
  show(byId("pay-bonds"), shown.month !== null && (payableRows().length > 0 || bonds.length > 0));
}

function sumInWords() {
  const bonds = chosenBonds();
  return `${moneyInWords(sumOf(bonds))}. ${chosenInWords(bonds)}`;
}

function sayChosen() {
  announce(sumInWords());
}

// Moves the keyboard to Pay, or to the payee if none is entered.
function toPay() {
  if (byId("pay-bonds").hidden) return;
  byId(readCustomer(byId("payee").value) === null ? "payee" : "pay-button").focus();
}

// ---- the sheet

function choose(row) {
  shown.chosen.set(row.serial, { ...row, owner: shown.sheet.customer, is_added: false });
  found(row.serial);
}

// What the boxes of the table want.
const ACTS = {
  isChosen: (row) => shown.chosen.has(row.serial),
  isBarred: (row) => !canChoose() || !isPayable(row),
  choose: (row, is_chosen) => {
    clearNoted();
    if (is_chosen) choose(row);
    else shown.chosen.delete(row.serial);
    followBoxes();
    sayChosen();
  },
  toPay,
};

function noDay() {
  return element("p", { class: "other-month" }, PAY.no_day_sheet);
}

// Says why nothing can be chosen on a sheet, with the way to the one on which it can.
function otherMonth(app) {
  if (shown.month === null) return noDay();
  const month = shown.month;
  const goes = button(PAY.show_month(month), () => {
    byId("month").value = month;
    return ask(app);
  });
  return element("p", { class: "other-month" }, PAY.other_month(month), goes);
}

// What the button chooses: all that is shown and can be paid, as far as a ticket has room for it beside what else is chosen.
function payableShown() {
  return canChoose() ? shown.rows.filter(isPayable) : [];
}

function chosenOf(rows) {
  return rows.filter(ACTS.isChosen).length;
}

function roomFor(rows) {
  return Math.min(rows.length, MOST_BONDS - shown.chosen.size + chosenOf(rows));
}

function chooseAll() {
  const rows = payableShown();
  const are_all_chosen = chosenOf(rows) >= roomFor(rows);
  for (const row of rows) shown.chosen.delete(row.serial);
  if (!are_all_chosen) rows.slice(0, roomFor(rows)).forEach(choose);
  clearNoted();
  followBoxes();
  sayChosen();
}

function isWhole() {
  return shown.rows.length === shown.sheet.rows.length;
}

function allButtonText(rows) {
  if (chosenOf(rows) >= roomFor(rows)) return SHEET.select_none;
  if (roomFor(rows) < rows.length) return SHEET.select_first(roomFor(rows));
  return isWhole() ? SHEET.select(rows.length) : SHEET.select_shown(rows.length);
}

function followAllButton() {
  const rows = payableShown();
  byId("choose-all").textContent = allButtonText(rows);
  show(byId("choose-all"), chosenOf(rows) > 0 || roomFor(rows) > 0);
}

// The form folds into one line, with what can be done with the sheet, so that the bonds have the room.
function fold(is_folded) {
  const { sheet } = shown;
  show(byId("ask-sheet"), !is_folded);
  show(byId("folded"), is_folded);
  byId("pay").classList.toggle("folds", is_folded);
  byId("pay").querySelector("h1").classList.toggle("unseen", is_folded);
  if (!is_folded) return;
  byId("facts").textContent = SHEET.facts(sheet.customer, sheet.month, payableInWords());
  byId("sheet-acts").replaceChildren(button("", chooseAll, { id: "choose-all" }), button("", otherColumns, { id: "all-columns" }), button(SHEET.change, unfold, { id: "change" }));
  showColumns();
}

function unfold() {
  fold(false);
  byId("customer").select();
}

// Columns that a payment doesn't need come on demand.
function otherColumns() {
  shown.has_all_columns = !shown.has_all_columns;
  showColumns();
}

function showColumns() {
  byId("sheet").classList.toggle("all", shown.has_all_columns);
  byId("all-columns").textContent = shown.has_all_columns ? SHEET.fewer_columns : SHEET.all_columns;
}

function payableInWords() {
  const payable = payableRows();
  return SHEET.payable(payable.length, unpaidRows(shown.sheet.rows).length, sumOf(payable));
}

// Shows in the boxes, the cards and the sum what is chosen.
function followBoxes() {
  shown.table?.follow();
  if (byId("choose-all") !== null) followAllButton();
  showFiltered();
  showChosen();
}

// Folds the form, if bonds can be chosen: by itself only as it was.
function showSheet(app, is_folded = byId("ask-sheet").hidden) {
  const { sheet } = shown;
  shown.table?.end();
  shown.table = sheet.rows.length === 0 ? null : new SheetTable(sheet, ACTS);
  const parts = [element("p", { class: "main-fact" }, SHEET.none(sheet.customer))];
  if (shown.table !== null) parts.splice(0, 1, ...(canChoose() ? [] : [otherMonth(app)]), shown.table.region, ...legend(sheet));
  byId("sheet").replaceChildren(...parts);
  fold(is_folded && shown.table !== null && canChoose());
  showRows();
}

// What a screen reader hears of a sheet that came.
function saySheet() {
  const { customer, month, rows } = shown.sheet;
  if (rows.length === 0) announce(SHEET.none(customer));
  else announce(`${SHEET.caption(customer, month)}. ${canChoose() ? payableInWords() : byId("sheet").firstChild.firstChild.textContent}`);
}

// ---- the filter

// Shows the rows of the sheet that the filter leaves.
function showRows() {
  shown.rows = filtered(shown.sheet.rows, byId("filter").value);
  shown.table?.show(shown.rows, isWhole());
  followBoxes();
}

function filteredInWords() {
  const hidden = chosenBonds().length - addedBonds().length - chosenOf(shown.rows);
  return isWhole() ? "" : SHEET.filtered(shown.rows.length, shown.sheet.rows.length, hidden);
}

function showFiltered() {
  show(byId("narrow"), shown.table !== null);
  byId("filter-count").textContent = shown.table === null ? "" : filteredInWords();
}

function startFilter() {
  let said = null;
  byId("filter").addEventListener("input", () => {
    showRows();
    clearTimeout(said);
    said = setTimeout(() => shown.table !== null && announce(filteredInWords() || payableInWords()), TYPED);
  });
  // Enter leads to the first bond that is left.
  onSubmit(byId("narrow"), () => {
    const first = payableShown()[0];
    if (first !== undefined) shown.table.focus(first);
  });
}

// The sheet that was there stays until the other has come.
async function ask(app) {
  const fields = readFields([byId("customer"), readCustomer, ENTER.customer], [byId("month"), readMonth, ENTER.month]);
  if (fields === null) return;
  const answer = await app.lookUp((signal) => awaited(signal, askSheet(...fields, signal)));
  // A long sheet is read and shown in two turns.
  await new Promise((resolve) => setTimeout(resolve));
  if (asks === answer) asks = null;
  if (answer.kind !== "sheet") {
    app.tellUnanswered(answer);
    return;
  }
  clearPay();
  shown.sheet = answer;
  byId("payee").value = String(answer.customer);
  const had_keyboard = byId("ask-sheet").contains(document.activeElement);
  showSheet(app, true);
  saySheet();
  const begin = byId(canChoose() ? "hand" : "sheet");
  // In a low or narrow window the sheet would begin below what is seen.
  if (begin.getBoundingClientRect().top > innerHeight / 4) begin.scrollIntoView();
  // After this form the next field is the one for the bonds in hand.
  if (canChoose() && had_keyboard) leadTo(byId("in-hand"));
  takeWaiting();
}

// An answer, until which scans wait; or until the look-up is ended before it.
async function awaited(signal, asked) {
  asks = signal;
  signal.addEventListener("abort", () => asks === signal && (asks = null));
  const answer = await asked;
  if (asks === signal) asks = answer;
  return answer;
}

// ---- bonds in hand

// Why a bond of this serial number can't be chosen on the sheet, or null.
function barOf(serial) {
  const row = shown.sheet.rows.find((one) => one.serial === serial);
  if (row === undefined) return PAY.not_owned(serial, shown.sheet.customer);
  if (isPaid(row)) return HAND.paid(serial, row.ticket);
  if (!isPayable(row)) return PAY.not_payable(serial, shown.month, row.note);
  return shown.chosen.size < MOST_BONDS ? null : HAND.no_room(serial, MOST_BONDS);
}

// A button that leads to the fields for a bond of another owner.
function otherOwner(serial) {
  return button(HAND.other_owner(serial), () => {
    byId("serial").value = serial;
    byId("owner").focus();
  });
}

// Chooses the bonds of some texts, and says which. Returns their number.
function takeAll(texts) {
  const said = texts.map(take);
  const serials = texts.map(readSerial);
  texts.forEach((text, place) => shown.scans.add(serials[place] ?? text));
  shown.table?.reveal(shown.rows.find((row) => row.serial === serials.at(-1)));
  byId("hand-last").textContent = said.at(-1);
  announce(`${said.join(" ")} ${sumInWords()}`);
  return texts.length;
}

// Chooses a bond of the sheet by its serial number, or puts it on the list of what wasn't chosen. Returns what to say.
function take(text) {
  const { value: serial, why } = typedSerial(text);
  if (serial === null) return missing(text, HAND.no_serial(text, why));
  if (shown.chosen.has(serial)) return PAY.already(serial);
  const bar = barOf(serial);
  const row = shown.sheet.rows.find((one) => one.serial === serial);
  if (bar !== null) return missing(serial, bar, ...(row === undefined ? [otherOwner(serial)] : []));
  choose(row);
  followBoxes();
  return HAND.taken(serial, row.denom, row.issued, row.value);
}

function missing(name, why, ...more) {
  miss(name, why, ...more);
  return why;
}

// ---- bonds of other owners

function showAdded() {
  const items = addedBonds().map((bond) => {
    const remove = button(PAY.remove(bond.serial), () => {
      shown.chosen.delete(bond.serial);
      showAdded();
      byId("serial").focus();
    });
    return element("li", {}, element("span", {}, PAY.added_line(bond.serial, bond.owner, bond.value)), remove);
  });
  byId("others").replaceChildren(...(items.length === 0 ? [] : [element("ul", { "aria-label": PAY.added }, ...items)]));
  followBoxes();
  sayChosen();
}

async function add(app) {
  const fields = readFields([byId("serial"), typedSerial, ENTER.serial], [byId("owner"), readCustomer, ENTER.customer]);
  if (fields === null) return;
  const [serial, owner] = fields;
  if (shown.month === null) tellNoDay();
  else if (shown.chosen.has(serial)) notice("noted", PAY.already(serial));
  else await addFrom(app, serial, owner, shown.month);
}

// Adds a bond from its owner's sheet, which tells that it is unpaid, and its value.
async function addFrom(app, serial, owner, month) {
  const sheet = await app.lookUp((signal) => askSheet(owner, month, signal));
  const row = sheet.kind === "sheet" ? sheet.rows.find((one) => one.serial === serial) : undefined;
  if (sheet.kind !== "sheet") app.tellUnanswered(sheet);
  else if (month !== shown.month) notice("noted", PAY.day_changed, PAY.add_again);
  else if (row === undefined) notice("noted", PAY.not_owned(serial, owner), PAY.not_owned_help);
  else if (!isPayable(row)) notice("noted", PAY.not_payable(serial, month, row.note));
  else chooseAdded(row, owner);
}

// Chooses it on the sheet that is shown, if it is there, and else beside it.
function chooseAdded(row, owner) {
  if (payableRows().some((one) => one.serial === row.serial)) choose(row);
  else shown.chosen.set(row.serial, { ...row, owner, is_added: true });
  found(row.serial);
  for (const field of ["serial", "owner"]) byId(field).value = "";
  showAdded();
  byId("serial").focus();
}

// ---- paying

function tellNoDay() {
  notice("noted", PAY.no_day, PAY.no_day_help);
}

async function pay(app) {
  const bonds = chosenBonds();
  const { day } = app.record;
  if (day === null || monthOf(day) !== shown.month) tellNoDay();
  else if (bonds.length === 0) notice("noted", PAY.none_chosen, PAY.choose_help);
  else if (bonds.length > MOST_BONDS) notice("noted", PAY.too_many_chosen(MOST_BONDS, bonds.length), PAY.too_many_help);
  else await payTo(app, day, bonds);
}

async function payTo(app, day, bonds) {
  const fields = readFields([byId("payee"), readCustomer, ENTER.customer]);
  if (fields === null) return;
  const [payee] = fields;
  const sum = sumOf(bonds);
  const lines = [...scanLines(), PAY.pay_lines(bonds.length, day, sum), bondList(bonds), element("p", { class: "help" }, PAY.window)];
  if (!(await isWithoutDoubt(day, bonds, sum))) return;
  if (!(await confirmed(PAY.pay_title(sum, payee), lines, PAY.pay_to(sum, payee)))) return;
  noteSent();
  await app.act("/redeem", { day, payee, serials: bonds.map((bond) => bond.serial) }, { shown: sum.toString(), bonds: bondsOf(bonds) });
  takeWaiting();
}

// How many of the scans are paid, and why the others aren't.
function scanLines() {
  const names = [...shown.scans];
  const left = names.filter((name) => !shown.chosen.has(name));
  if (names.length === 0) return [];
  const items = left.map((name) => element("li", {}, whyMissed(name) ?? PAY.unticked(name)));
  return [element("p", { class: left.length === 0 ? "" : "says" }, PAY.scans(names.length - left.length, names.length)), ...(left.length === 0 ? [] : [element("ul", { class: "left", tabindex: "0", "aria-label": PAY.left }, ...items)])];
}

// What one holds against the paper. The list has its name from the question's title, so that a screen reader says the bonds, and not the name, as it describes the question.
export function bondList(bonds) {
  const item = (bond) => {
    const parts = PAY.bond_line(bond.serial, bond.denom, bond.issued, bond.value).map((text) => element("span", {}, text));
    return element("li", {}, ...parts.flatMap((part) => [part, " "]));
  };
  return element("ul", { class: "bonds", tabindex: "0", "aria-labelledby": "confirm-title" }, ...bonds.map(item));
}

// ---- what stays

// What is chosen and typed, for a comparison.
function asTyped() {
  const fields = ["customer", "payee", "in-hand", "filter", "serial", "owner"].map((id) => byId(id).value);
  return { sheet: shown.sheet, text: JSON.stringify([fields, [...shown.chosen.keys()]]) };
}

// Remembers what is chosen and typed as a payment is sent.
export function noteSent() {
  sent = asTyped();
}

// Whether the teller has gone on to other bonds: something is there that wasn't there when the last payment was sent.
export function hasGoneOn() {
  const now = asTyped();
  const is_empty = now.sheet === null && !/[0-9A-Z]/.test(now.text);
  return !is_empty && (now.sheet !== sent?.sheet || now.text !== sent.text);
}

// Marks bonds that turn out to be paid. They are no longer chosen, nor counted.
export function markPaid(app, serials, ticket) {
  for (const serial of serials) {
    if (shown.chosen.get(serial)?.is_added) miss(serial, HAND.paid(serial, ticket));
    shown.chosen.delete(serial);
  }
  if (shown.sheet !== null) {
    for (const row of shown.sheet.rows) if (serials.includes(row.serial)) row.ticket = ticket;
    showSheet(app);
  }
  showAdded();
}

function clearChosen() {
  shown.chosen.clear();
  shown.scans.clear();
  byId("others").replaceChildren();
}

// Leaves nothing of a customer's bonds in the view.
export function clearPay() {
  shown.table?.end();
  Object.assign(shown, { sheet: null, table: null, rows: [] });
  clearChosen();
  clearHand();
  byId("sheet").replaceChildren();
  fold(false);
  for (const field of ["payee", "in-hand", "filter", "serial", "owner"]) {
    byId(field).value = "";
    unmark(byId(field));
  }
  showFiltered();
  showChosen();
}

// Follows the day that the page works on. In another month, or without a day, nothing that was chosen stays, and a sheet stays only if it is of that month.
export function followDay(app) {
  const month = app.record.day === null ? null : monthOf(app.record.day);
  if (month === shown.month) return;
  shown.month = month;
  if (shown.sheet !== null && shown.sheet.month === month) {
    clearChosen();
    showSheet(app, true);
  } else {
    clearPay();
    byId("month").value = month ?? monthOf(today());
  }
}

// As the view is entered, the month is that of the open day, unless a sheet is shown.
export function enterPay(app) {
  if (shown.sheet === null) byId("month").value = monthOf(app.record.day ?? today());
}

// Leads to the next customer: to the number, or to the bonds if a sheet is shown already.
export function focusPay() {
  if (shown.sheet === null) byId("customer").value = "";
  goTo("pay", byId("folded").hidden ? "customer" : "in-hand");
}

export function startPayView(app) {
  // A browser without a field for months has one for text.
  if (byId("month").type !== "month") document.querySelector("label[for=month]").textContent = TEXTS.month_typed;
  onSubmit(byId("ask-sheet"), () => ask(app));
  onSubmit(byId("add-bond"), () => add(app));
  onSubmit(byId("pay-bonds"), () => pay(app));
  byId("payee").addEventListener("input", showChosen);
  startHand(() => (readCustomer(byId("payee").value) === null ? toPay() : pay(app)));
  takeScans(() => asks === null && byId("in-hand").checkVisibility(), takeAll);
  startFilter();
  showChosen();
}
