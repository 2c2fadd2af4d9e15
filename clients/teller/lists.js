// Lists that a view begins with. Each is loaded into its place, beside what the teller does.

import { element } from "./elements.js";
import { button } from "./forms.js";
import { Unanswered } from "./latest.js";
import { unansweredLine } from "./notices.js";
import { LOOKUPS } from "./words.js";

// What is being loaded into each place: what ends it, and the line that says so.
const loading = new Map();

// Ends what is being loaded into a place.
export function stopLoading(place) {
  loading.get(place)?.control.abort();
  loading.get(place)?.line.remove();
  loading.delete(place);
}

// Loads into `place` what `work` makes of the look-ups' signal: elements. Until it comes, what was there stays, or a line says what is being done: `work` may call its second argument with another
// text. If the counter doesn't answer, the place says so, with a button to try again.
export async function load(place, work) {
  stopLoading(place);
  const control = new AbortController();
  const line = element("p", { class: "help" }, LOOKUPS.reading);
  loading.set(place, { control, line });
  if (place.childElementCount === 0) place.replaceChildren(line);
  try {
    const made = await work(control.signal, (text) => (line.textContent = text));
    if (!control.signal.aborted) place.replaceChildren(...made);
  } catch (error) {
    if (control.signal.aborted) return;
    if (!(error instanceof Unanswered)) throw error;
    place.replaceChildren(unansweredLine(error.answer), tryAgain(place, work));
  }
}

function tryAgain(place, work) {
  const again = button(LOOKUPS.try_again, () => {
    place.replaceChildren();
    return load(place, work);
  });
  return element("p", { class: "buttons" }, again);
}

// A table of a list: each row's cells, of which the first is a button that shows the thing.
export function listTable(caption, columns, rows) {
  const last = columns.length - 1;
  const head = columns.map((name, place) => element("th", { scope: "col", ...(place === last ? { class: "money" } : {}) }, name));
  const row = ([first, ...others]) => {
    const cells = others.map((text, place) => element("td", { "data-name": columns[place + 1], ...(place + 1 === last ? { class: "money" } : {}) }, text));
    return element("tr", {}, element("th", { scope: "row" }, first), ...cells);
  };
  const parts = [element("caption", { class: "unseen" }, caption), element("thead", {}, element("tr", {}, ...head)), element("tbody", {}, ...rows.map(row))];
  return element("table", { class: "list" }, ...parts);
}
