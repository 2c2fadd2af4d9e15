// Fields and what stands under them, and the work that a form or a button does.

import { byId, element } from "./elements.js";
import { tellFailed } from "./notices.js";
import { TYPED } from "./words.js";

// By field that was marked and wasn't right since: how it is read, and what it asks for. It is marked while it spells nothing.
const watched = new WeakMap();

// What a field spells, or null; and what it asks for, which a reader of typed.js may know better.
function readField(input, read, asks) {
  const found = read(input.value);
  if (found?.why === undefined) return { value: found, asks };
  return { value: found.value, asks: TYPED[found.why] ?? asks };
}

// Marks a field with what it asks for, or takes the mark off if that is empty. The text stands under the field until then, and a screen reader says it with the field.
function mark(input, asks) {
  const id = `${input.id}-error`;
  byId(id)?.remove();
  const others = (input.getAttribute("aria-describedby") ?? "").split(" ").filter((one) => one !== "" && one !== id);
  if (asks === "") {
    input.removeAttribute("aria-invalid");
  } else {
    input.setAttribute("aria-invalid", "true");
    input.after(element("span", { class: "error", id }, asks));
    others.push(id);
  }
  if (others.length === 0) input.removeAttribute("aria-describedby");
  else input.setAttribute("aria-describedby", others.join(" "));
}

// What fields spell, each given as its input, its reader and what it asks for: their values; or null, if one spells none. Each such one is marked, and the first takes the keyboard.
export function readFields(...fields) {
  const found = fields.map((field) => readField(...field));
  fields.forEach(([input, ...reads], place) => {
    if (found[place].value === null) watched.set(input, reads);
    else watched.delete(input);
    mark(input, found[place].value === null ? found[place].asks : "");
  });
  const first = found.findIndex(({ value }) => value === null);
  if (first >= 0) fields[first][0].focus();
  return first >= 0 ? null : found.map(({ value }) => value);
}

export function unmark(input) {
  watched.delete(input);
  mark(input, "");
}

// Does `work`, and reports a failure in the page's own words.
async function guarded(work) {
  try {
    await work();
  } catch (error) {
    tellFailed(error);
  }
}

// Has a form do `work`, by Enter and by its button.
export function onSubmit(form, work) {
  form.addEventListener("submit", (event) => {
    event.preventDefault();
    guarded(work);
  });
  form.addEventListener("input", (event) => {
    if (!watched.has(event.target)) return;
    const { value, asks } = readField(event.target, ...watched.get(event.target));
    mark(event.target, value === null ? asks : "");
  });
}

export function onClick(target, work) {
  target.addEventListener("click", () => guarded(work));
}

export function button(text, work, attributes = {}) {
  const made = element("button", { type: "button", class: "plain", ...attributes }, text);
  onClick(made, work);
  return made;
}
