// A sheet as a table: what the teller asks for first, and the notes as badges with one legend. In a narrow window each bond becomes a card. A click anywhere on a bond chooses it.
//
// Rows lie in groups, and the browser lays out the groups near the window alone (`content-visibility`). Each row is a grid, so its roles are named. The rows of a long sheet are made in short turns, those
// near the window first, and until the last is made the table is busy (`aria-busy`). So a sheet of thousands of bonds stops nothing.

import { element } from "./elements.js";
import { isPaid, isPayable } from "./sheet.js";
import { moneyInWords, PAY, SHEET } from "./words.js";

const COLUMNS = Object.keys(SHEET.columns);
const MONEY = ["denom", "price", "interest", "rate", "value"];
const GROUP = 50;
const GROUPS_AT_ONCE = 2;
const TURN_MILLISECONDS = 10;
const MOVES = { ArrowDown: 1, ArrowUp: -1, PageDown: 20, PageUp: -20, Home: -Infinity, End: Infinity };

function cell(name, ...content) {
  if (name === "serial") return element("th", { scope: "row", role: "rowheader", class: "of-serial" }, ...content);
  const kind = MONEY.includes(name) ? `money of-${name}` : `of-${name}`;
  return element("td", { role: "cell", "data-name": SHEET.columns[name], class: kind }, ...content);
}

function badge(note) {
  return note === "" ? "" : element("span", { class: isPayable({ note }) ? "badge" : "badge barred" }, note);
}

function noteOf(row) {
  return isPaid(row) ? element("span", { class: "badge barred paid" }, SHEET.paid(row.ticket)) : badge(row.note);
}

function cellsOf(row) {
  return {
    serial: row.serial,
    value: moneyInWords(row.value),
    note: noteOf(row),
    denom: SHEET.denom(row.denom),
    issued: row.issued,
    price: moneyInWords(row.price),
    interest: moneyInWords(row.interest),
    rate: row.rate || SHEET.no_value,
    next: row.next || SHEET.no_value,
    final: row.final || SHEET.no_value,
  };
}

const blank = element("tr", { role: "row" }, ...COLUMNS.map((name) => cell(name, ...(name === "box" ? [element("input", { type: "checkbox" })] : []))));

// The sums of some rows, under their columns.
function sumRow(title, sums, place) {
  const content = (name) => (name === "serial" ? title : moneyInWords(sums[name]));
  const cells = COLUMNS.map((name) => (name === "serial" || name in sums ? cell(name, content(name)) : element("td", { role: "cell", class: "none" })));
  return element("tr", { role: "row", "aria-rowindex": place }, ...cells);
}

function sumsOf(rows) {
  const sum = (name) => rows.reduce((cents, row) => cents + row[name], 0n);
  return { price: sum("price"), interest: sum("interest"), value: sum("value") };
}

// The rows without the bonds that were paid since the sheet came.
export function unpaidRows(rows) {
  return rows.filter((row) => !isPaid(row));
}

// The sums under some rows: of those that can be paid, if they aren't all, and of all.
function footRows(rows, is_whole) {
  const unpaid = unpaidRows(rows);
  const payable = unpaid.filter(isPayable);
  const titled = [[is_whole ? SHEET.total : SHEET.total_shown, unpaid]];
  if (payable.length < unpaid.length) titled.unshift([SHEET.payable_total, payable]);
  return titled.map(([title, some], place) => sumRow(title, sumsOf(some), rows.length + 2 + place));
}

// What the notes on a sheet mean.
export function legend(sheet) {
  const notes = Object.keys(SHEET.notes).filter((note) => unpaidRows(sheet.rows).some((row) => row.note === note));
  if (notes.length === 0) return [];
  const lines = notes.flatMap((note) => [element("dt", {}, badge(note)), element("dd", {}, SHEET.notes[note])]);
  return [element("div", { role: "group", "aria-label": SHEET.legend }, element("dl", { class: "legend" }, ...lines))];
}

export class SheetTable {
  #acts;
  #table;
  #head;
  #foot = element("tfoot", { role: "rowgroup" });
  #watcher = new IntersectionObserver((entries) => this.#came(entries), { rootMargin: "1000px" });
  #rows = [];
  #groups = [];
  #unwritten = new Set();
  #timer;
  // By serial number: the row, its line in the table, and its box.
  #made = new Map();

  // `acts` says of a row whether it `isChosen` and `isBarred`, and does what the boxes want: `choose` a row or not, and `toPay`.
  constructor(sheet, acts) {
    this.#acts = acts;
    const heading = (name) => element("th", { scope: "col", role: "columnheader", class: MONEY.includes(name) ? "money" : "" }, SHEET.columns[name]);
    this.#head = element("thead", { role: "rowgroup" }, element("tr", { role: "row", "aria-rowindex": 1 }, ...COLUMNS.map(heading)));
    this.#table = element("table", { class: "sheet", role: "table" }, element("caption", { class: "unseen" }, SHEET.caption(sheet.customer, sheet.month)), this.#head, this.#foot);
    this.#table.addEventListener("click", (event) => this.#clicked(event));
    this.#table.addEventListener("change", ({ target }) => this.#acts.choose(this.#made.get(target.dataset.serial).row, target.checked));
    this.#table.addEventListener("keydown", (event) => this.#pressed(event));
    // If it is wider than the window, the keyboard moves it too.
    this.region = element("div", { class: "wide", tabindex: "0", role: "region", "aria-label": SHEET.region }, this.#table);
  }

  // Shows some rows of the sheet, or all if it `is_whole`. The table is on the page.
  show(rows, is_whole) {
    if (rows.length > 0 && rows.length === this.#rows.length && rows.every((row, at) => row === this.#rows[at])) return;
    this.#rows = rows;
    this.#watcher.disconnect();
    this.#groups.forEach((group) => group.remove());
    this.#groups = Array.from({ length: Math.ceil(rows.length / GROUP) }, () => element("tbody", { role: "rowgroup" }));
    this.#foot.before(...this.#groups);
    this.#foot.replaceChildren(...footRows(rows, is_whole));
    this.#table.setAttribute("aria-rowcount", rows.length + 1 + this.#foot.childElementCount);
    this.#unwritten = new Set(this.#groups.keys());
    for (const place of this.#seen()) this.#write(place);
    this.#groups.forEach((group) => this.#watcher.observe(group));
    this.#writeOn();
  }

  // Shows in the boxes and the lines what is chosen.
  follow() {
    for (const { row, line, box } of this.#made.values()) this.#mark(row, line, box);
  }

  end() {
    this.#watcher.disconnect();
    clearTimeout(this.#timer);
  }

  // Which groups are written before anything else is done.
  #seen() {
    const places = [...this.#groups.keys()];
    if (places.length <= GROUPS_AT_ONCE) return places;
    const is_near = ({ top, bottom }) => bottom > 0 && top < innerHeight;
    return places.filter((place) => place === 0 || is_near(this.#groups[place].getBoundingClientRect()));
  }

  // Groups that come near the window.
  #came(entries) {
    for (const entry of entries) if (entry.isIntersecting) this.#write(this.#groups.indexOf(entry.target));
  }

  // Writes what is left, in turns.
  #writeOn() {
    clearTimeout(this.#timer);
    const end = performance.now() + TURN_MILLISECONDS;
    for (const place of this.#unwritten) {
      if (performance.now() > end) break;
      this.#write(place);
    }
    this.#table.setAttribute("aria-busy", String(this.#unwritten.size > 0));
    if (this.#unwritten.size > 0) this.#timer = setTimeout(() => this.#writeOn());
  }

  #write(place) {
    if (!this.#unwritten.delete(place)) return;
    const first = place * GROUP;
    this.#groups[place].replaceChildren(...this.#rows.slice(first, first + GROUP).map((row, at) => this.#lineOf(row, first + at + 2)));
  }

  #lineOf(row, index) {
    const made = this.#made.get(row.serial) ?? this.#makes(row);
    made.line.setAttribute("aria-rowindex", index);
    return made.line;
  }

  #makes(row) {
    const line = blank.cloneNode(true);
    const cells = cellsOf(row);
    COLUMNS.forEach((name, place) => name in cells && line.children[place].append(cells[name]));
    const box = line.querySelector("input");
    box.setAttribute("aria-label", PAY.box(row.serial));
    box.dataset.serial = row.serial;
    const made = { row, line, box };
    this.#made.set(row.serial, made);
    this.#mark(row, line, box);
    return made;
  }

  #mark(row, line, box) {
    const [is_chosen, is_barred] = [this.#acts.isChosen(row), this.#acts.isBarred(row)];
    const kind = is_barred ? "barred" : is_chosen ? "choosable chosen" : "choosable";
    if (box.checked !== is_chosen) box.checked = is_chosen;
    if (box.disabled !== is_barred) box.disabled = is_barred;
    if (line.className !== kind) line.className = kind;
  }

  // A click beside the box is one on it. Text that is being selected isn't a click.
  #clicked(event) {
    const box = event.target.closest("tbody tr")?.querySelector("input");
    if (box && event.target !== box && !box.disabled && String(getSelection()) === "") box.click();
  }

  // Enter on a box leads to Pay; else it would press Pay. The arrow keys move between boxes.
  #pressed(event) {
    if (!event.target.matches("input")) return;
    if (event.key === "Enter") this.#acts.toPay();
    else if (event.key in MOVES) this.#move(event.target.dataset.serial, MOVES[event.key]);
    else return;
    event.preventDefault();
  }

  #move(serial, by) {
    const last = this.#rows.length - 1;
    const from = this.#rows.findIndex((row) => row.serial === serial);
    const step = Math.sign(by);
    let place = Math.min(Math.max(from + by, 0), last);
    // At the end of the list the way back is looked at, too.
    while (place >= 0 && place <= last && this.#acts.isBarred(this.#rows[place])) place += Number.isFinite(by) ? step : -step;
    if (place >= 0 && place <= last) this.focus(this.#rows[place]);
  }

  // Gives the keyboard to the box of a row that is shown.
  focus(row) {
    this.#write(Math.floor(this.#rows.indexOf(row) / GROUP));
    this.#made.get(row.serial).box.focus();
  }

  // Brings a row into sight, if it is shown.
  reveal(row) {
    if (row === undefined) return;
    this.#write(Math.floor(this.#rows.indexOf(row) / GROUP));
    this.#made.get(row.serial).line.scrollIntoView({ block: "nearest" });
  }
}
