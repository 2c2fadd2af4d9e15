// Pasted bonds: the page shows what it understood, and adds it when the button below is pressed. Rows with a fault are mended in place, and stay there
// when the others are added.

import { addRows } from "./adding.js";
import { partedBonds } from "./books.js";
import { byId, element, table } from "./elements.js";
import { tell, tellMending } from "./notices.js";
import { cellsOf, leftOver, mended, readingPasted, readPasted } from "./paste.js";
import { remarksOn } from "./remarks.js";
import { readCustomer } from "./spelling.js";
import { state } from "./state.js";
import { TEXTS } from "./texts.js";
import { atOnce, inTurns, underBar } from "./turns.js";

const MOST_ROWS = 20;
const MOST_LEFT = 5;
// A text of more characters is read in turns.
const LONG = 40_000;
const NOTHING = { text: "", read: null, good: [], bad: [] };

// The text that is shown as it was understood, what was read of it, and its bonds and rows to mend.
let shown = NOTHING;

function previewOf(rows) {
  const has_owners = rows.some((row) => row.owner !== 1 || row.coowner !== undefined);
  const cells = (row) => [String(row.row), row.serial ?? TEXTS.no_serial, TEXTS.dollars(row.denom), TEXTS.month(row.issued), ...(has_owners ? [TEXTS.owners(row)] : [])];
  return table("", TEXTS.understood_columns(has_owners), rows.slice(0, MOST_ROWS).map(cells));
}

function notesOf(good, { heading, ignored, left }, remarks) {
  const more = good.length > MOST_ROWS ? [TEXTS.more_understood(good.length - MOST_ROWS)] : [];
  const headed = heading === null ? [] : [TEXTS.headed(heading)];
  const unread = ignored.length === 0 ? [] : [TEXTS.ignored(ignored)];
  const lines = left.slice(0, MOST_LEFT).map(TEXTS.left_out);
  const rest = left.length > MOST_LEFT ? [TEXTS.more_left(left.length - MOST_LEFT)] : [];
  return [...more, ...remarks, ...headed, ...unread, ...lines, ...rest];
}

// A row with a fault: a field for each of its columns, and what is wrong.
function mendingRow({ row, column, said }) {
  const fields = cellsOf(shown.read, row).map((cell) => {
    const name = `mend-${row}-${cell.column}`;
    const field = element("input", { id: name, value: cell.text, "aria-invalid": String(cell.column === column), "aria-describedby": `mend-${row}` });
    field.addEventListener("change", () => mend(row, cell.column, field.value));
    return element("span", { class: "field" }, element("label", { for: name }, TEXTS.mend_label(row, cell.column)), " ", field);
  });
  return element("li", {}, element("p", { class: "row" }, ...fields), element("p", { id: `mend-${row}`, class: "fault" }, said));
}

function forget() {
  shown = NOTHING;
  byId("understood").hidden = true;
  byId("mend").hidden = true;
  byId("paste-add").textContent = TEXTS.paste_button;
}

// Faults of the text and refusals of the books, in the order of rows.
function badOf(faults, refused) {
  const wrong = [...faults.map((fault) => ({ row: fault.row, column: fault.column, said: TEXTS.fault(fault) })), ...refused.map((one) => ({ row: one.row, column: "serial", said: TEXTS.refusal(one) }))];
  return wrong.sort((one, other) => one.row - other.row);
}

// `before` is what was done before, in place of how much was understood.
function show(text, read, { hints = [], before = "" }) {
  const { good, refused } = partedBonds(state.books, read.good);
  const remarks = remarksOn(good, TEXTS.row_name);
  shown = { text, read, good, bad: badOf(read.faults, refused) };
  byId("understood").hidden = false;
  byId("understood-rows").replaceChildren(...(good.length === 0 ? [] : previewOf(good)));
  byId("understood-notes").replaceChildren(...notesOf(good, read, remarks.lines).map((line) => element("li", {}, line)));
  byId("mend").hidden = shown.bad.length === 0;
  byId("mend-rows").replaceChildren(...shown.bad.slice(0, MOST_ROWS).map(mendingRow));
  byId("paste-add").textContent = good.length === 0 ? TEXTS.paste_button : TEXTS.paste_add(good.length);
  const told = before || `${TEXTS.understood(good.length)} ${remarks.told}`.trimEnd();
  if (shown.bad.length > 0) tellMending(told, shown.bad.map(({ said }) => said), hints);
  else tell(told, hints);
}

// Shows what the page understood of the text, and says it.
async function understand(saying = {}) {
  const text = byId("pasted").value;
  if (text.trim() === "") return forget();
  const reading = readingPasted(text, readCustomer(byId("owner").value.trim()) ?? 1);
  const isStale = () => byId("pasted").value !== text;
  const read = text.length < LONG ? atOnce(reading) : await inTurns(reading, isStale);
  if (read !== undefined && !isStale()) show(text, read, saying);
}

// Puts another text into a column of a row, and reads the list again. The keyboard goes to the next fault.
async function mend(row, column, text) {
  byId("pasted").value = mended(shown.read, row, column, text);
  await understand();
  const wrong = /** @type {HTMLElement | null} */ (document.querySelector("#mend-rows [aria-invalid=true]"));
  (wrong ?? byId("paste-add")).focus();
}

// Adds the bonds that are shown, and leaves the rows to mend. A text that isn't shown yet is shown first.
async function add(event) {
  event.preventDefault();
  if (byId("pasted").value !== shown.text || shown.good.length === 0) return understand();
  const { text, read, good, bad } = shown;
  const is_long = text.length >= LONG;
  const rows = { rows: good, faults: [] };
  if (!(is_long ? await underBar(() => addRows(rows)) : addRows(rows))) return undefined;
  const before = byId("told-text").textContent;
  byId("pasted").value = bad.length === 0 ? "" : leftOver(read, new Set(bad.map(({ row }) => row)));
  forget();
  if (bad.length > 0) await understand({ before });
  return undefined;
}

/** Puts the text of a file that isn't an inventory here, and shows what the page understood of it. Returns whether there are bonds in it. */
export function understandFile(text) {
  if (readPasted(text, 1).good.length === 0) return false;
  byId("paste-form").closest("details").open = true;
  byId("pasted").value = text;
  understand({ hints: [TEXTS.file_understood] });
  return true;
}

export function beginPasting() {
  byId("pasted").addEventListener("input", () => understand());
  byId("paste-form").addEventListener("submit", add);
  forget();
}
