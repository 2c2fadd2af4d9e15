// Makes elements of HTML and SVG, and finds those of the page.

const SVG = "http://www.w3.org/2000/svg";

/**
 * @param {string} id
 * @returns {HTMLInputElement & HTMLDialogElement} which of them it is, and whether it is either, index.html says
 */
export const byId = (id) => /** @type {any} */ (document.getElementById(id));

function filled(made, attributes, children) {
  for (const [name, value] of Object.entries(attributes)) made.setAttribute(name, value);
  made.append(...children);
  return made;
}

export function element(name, attributes = {}, ...children) {
  return filled(document.createElement(name), attributes, children);
}

export function drawn(name, attributes = {}, ...children) {
  return filled(document.createElementNS(SVG, name), attributes, children);
}

/** Writes a text, if it isn't there already: a screen reader tells a live region that is written again. */
export function write(made, text) {
  if (made.textContent !== text) made.textContent = text;
}

export function options(select, pairs, chosen = select.value) {
  select.replaceChildren(...pairs.map(([value, text]) => element("option", { value }, text)));
  if (pairs.some(([value]) => String(value) === String(chosen))) select.value = chosen;
}

// A plain table with headings, whose first column names the row.
export function table(caption, headings, rows) {
  const head = element("tr", {}, ...headings.map((text) => element("th", { scope: "col" }, text)));
  const body = rows.map(([name, ...cells]) => element("tr", {}, element("th", { scope: "row" }, name), ...cells.map((text) => element("td", {}, text))));
  const title = caption === "" ? [] : [element("caption", {}, caption)];
  return [...title, element("thead", {}, head), element("tbody", {}, ...body)];
}
