// The table of bonds. Rows lie in groups, and the browser lays out only the groups near the window (`content-visibility`), so that 10,000 rows
// scroll. Of many rows those near the window are written at once, and the others in short turns, during which the table is busy (`aria-busy`).
// Rows are grids, so their roles are named. One row at a time takes the Tab key, and the arrow keys move between rows.

import { element } from "./elements.js";
import { COLUMNS, MONEY } from "./rows.js";
import { dollarsText } from "./spelling.js";
import { TEXTS } from "./texts.js";

const GROUP = 50;
const GROUPS_AT_ONCE = 30;
const TURN_MILLISECONDS = 10;
const PAGE = 20;
const MOVES = { ArrowDown: 1, ArrowUp: -1, PageDown: PAGE, PageUp: -PAGE, Home: -Infinity, End: Infinity };

function blankRow() {
  const open = element("button", { type: "button", class: "open", tabindex: "-1" });
  const name = element("th", { role: "rowheader", scope: "row", class: "serial", "data-name": TEXTS.columns.serial }, open);
  const cells = COLUMNS.slice(1, -1).map((column) => element("td", { role: "cell", class: column, "data-name": TEXTS.columns[column] }));
  const note = element("td", { role: "cell", class: "note", "data-name": TEXTS.columns.note }, element("span", { class: "code" }), element("span", { class: "words" }));
  return element("tr", { role: "row" }, name, ...cells, note);
}

// The text nodes of a row, in the order of its columns, and then that of the note's words.
function textsOf(made) {
  const cells = [made.firstChild.firstChild, ...[...made.children].slice(1, -1), ...made.lastChild.children];
  return cells.map((cell) => cell.appendChild(document.createTextNode("")));
}

function write(node, text) {
  if (node.data !== text) node.data = text;
}

// Dollars as people write them; the files have them as the counter prints them.
function shownText(row, column) {
  if (column === "denom") return TEXTS.dollars(row.bond.denom);
  return column in row.cents ? dollarsText(row.cents[column]) : row.texts[column];
}

function fill(nodes, row) {
  COLUMNS.forEach((column, place) => write(nodes[place], shownText(row, column)));
  write(nodes[COLUMNS.length], TEXTS.notes[row.texts.note]);
}

function headings(sort) {
  const cell = (column) => {
    const order = sort.column !== column ? "none" : sort.is_falling ? "descending" : "ascending";
    const button = element("button", { type: "button", "data-column": column, title: TEXTS.column_names[column] }, TEXTS.columns[column]);
    return element("th", { role: "columnheader", scope: "col", class: column, "aria-sort": order }, button);
  };
  return element("tr", { role: "row" }, ...COLUMNS.map(cell));
}

function totalRow(totals) {
  const text = (column) => (MONEY.includes(column) ? dollarsText(totals[column]) : "");
  const cells = COLUMNS.slice(1).map((column) => element("td", { role: "cell", class: column, "data-name": TEXTS.columns[column] }, text(column)));
  const name = element("th", { role: "rowheader", scope: "row", class: "serial" }, TEXTS.total_row);
  return element("tr", { role: "row" }, name, ...cells);
}

/** Shows rows in an element `table`. `opens` is called with the row of a serial number that is pressed, `sorts` with a column. */
export class BondTable {
  constructor(table, { opens, sorts }) {
    this.table = table;
    this.made = [];
    this.groups = [];
    this.stale = new Set();
    this.rows = [];
    this.current = 0;
    this.head = element("thead", { role: "rowgroup" });
    this.foot = element("tfoot", { role: "rowgroup" });
    this.template = blankRow();
    this.watcher = new IntersectionObserver((entries) => this.#came(entries), { rootMargin: "1000px" });
    table.replaceChildren(this.head, this.foot);
    this.head.addEventListener("click", (event) => this.#pressed(event, "[data-column]", (button) => sorts(button.dataset.column)));
    table.addEventListener("click", (event) => this.#pressed(event, ".open", (button) => this.#opened(button, opens)));
    table.addEventListener("keydown", (event) => this.#moved(event));
    addEventListener("beforeprint", () => this.#print());
    addEventListener("afterprint", () => this.#printed());
  }

  show(rows, totals, sort) {
    this.rows = rows;
    const had_keyboard = this.head.contains(document.activeElement) ? /** @type {HTMLElement} */ (document.activeElement).dataset.column : null;
    this.head.replaceChildren(headings(sort));
    if (had_keyboard !== null) this.head.querySelector(`[data-column="${had_keyboard}"]`).focus();
    this.foot.replaceChildren(totalRow(totals));
    this.#lay(Math.ceil(rows.length / GROUP));
    this.#choose(Math.min(this.current, Math.max(rows.length - 1, 0)));
  }

  // Puts as many groups into the table as there are, and has their rows written.
  #lay(count) {
    while (this.groups.length < count) {
      const group = element("tbody", { role: "rowgroup" });
      this.groups.push(group);
      this.watcher.observe(group);
    }
    this.stale = new Set(Array.from({ length: count }, (_, place) => place));
    this.groups.slice(count).forEach((group) => group.remove());
    this.groups.slice(0, count).forEach((group) => group.parentNode ?? this.foot.before(group));
    if (count <= GROUPS_AT_ONCE) this.#writeAll();
    else this.#writeSeen();
    this.#writeOn();
  }

  #writeSeen() {
    this.groups.forEach((group, place) => {
      const { top, bottom } = group.getBoundingClientRect();
      if (group.parentNode !== null && bottom > -innerHeight && top < 2 * innerHeight) this.#write(place);
    });
  }

  // Groups that come near the window.
  #came(entries) {
    for (const entry of entries) if (entry.isIntersecting) this.#write(this.groups.indexOf(entry.target));
  }

  #writeAll() {
    for (const place of this.stale) this.#write(place);
  }

  // On paper the last row stands in one group with the total, which is so never alone on a page.
  #print() {
    this.#writeAll();
    this.#printed();
    const last = this.made[this.rows.length - 1]?.element;
    if (last === undefined) return;
    this.lent = { last, group: last.parentNode };
    this.foot.prepend(last);
  }

  #printed() {
    this.lent?.group.append(this.lent.last);
    this.lent = undefined;
  }

  // Writes what is left, in turns.
  #writeOn() {
    clearTimeout(this.waiting);
    const end = performance.now() + TURN_MILLISECONDS;
    for (const place of this.stale) {
      if (performance.now() > end) break;
      this.#write(place);
    }
    this.table.setAttribute("aria-busy", String(this.stale.size > 0));
    if (this.stale.size > 0) this.waiting = setTimeout(() => this.#writeOn());
  }

  // Writes the rows of a group, if they aren't written.
  #write(place) {
    if (!this.stale.delete(place)) return;
    const rows = this.rows.slice(place * GROUP, (place + 1) * GROUP);
    const made = rows.map((row, at) => this.#filled(place * GROUP + at, row));
    if (this.groups[place].childElementCount !== made.length) this.groups[place].replaceChildren(...made);
  }

  #filled(place, row) {
    if (this.made[place] === undefined) {
      const made = this.template.cloneNode(true);
      this.made[place] = { element: made, texts: textsOf(made) };
    }
    fill(this.made[place].texts, row);
    return this.made[place].element;
  }

  #buttonAt(place) {
    return this.made[place]?.element.firstChild.firstChild;
  }

  #choose(place) {
    this.#buttonAt(this.current)?.setAttribute("tabindex", "-1");
    this.current = place;
    this.#write(Math.floor(place / GROUP));
    this.#buttonAt(place)?.setAttribute("tabindex", "0");
  }

  #placeOf(button) {
    const row = button.closest("tr");
    const group = this.groups.indexOf(row.parentNode);
    return group * GROUP + [...row.parentNode.children].indexOf(row);
  }

  #opened(button, opens) {
    const place = this.#placeOf(button);
    this.#choose(place);
    opens(this.rows[place]);
  }

  #pressed(event, selector, action) {
    const button = event.target.closest(selector);
    if (button !== null) action(button);
  }

  #moved(event) {
    const move = MOVES[event.key];
    if (move === undefined || !event.target.matches(".open")) return;
    event.preventDefault();
    const place = Math.min(Math.max(this.#placeOf(event.target) + move, 0), this.rows.length - 1);
    this.#choose(place);
    this.#buttonAt(place).focus();
    this.#buttonAt(place).scrollIntoView({ block: "nearest" });
  }
}
