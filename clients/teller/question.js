// The question before an act. Nobody confirms it by a press that was meant for what lay there before: its button works only after a rest, and never lies where the pointer was.

import { byId, element } from "./elements.js";

// How long the button that confirms rests, in milliseconds. Each press on it meanwhile starts the rest anew.
const REST = 1500;

// How far the button that confirms stays from the pointer, in pixels.
const APART = 16;

// Where the question may stand: its class, and what its buttons stand before (null: nothing). The first place that is apart from the pointer is taken.
const PLACES = [
  ["", null],
  ["high", "confirm-text"],
  ["low", null],
  ["high top", "confirm-title"],
];

// Where the pointer was last.
const pointer = { x: -APART, y: -APART };
let resting = null;

function rest() {
  const yes = byId("confirm-yes");
  yes.setAttribute("aria-disabled", "true");
  clearTimeout(resting);
  resting = setTimeout(() => yes.removeAttribute("aria-disabled"), REST);
}

function isApart() {
  const { left, right, top, bottom } = byId("confirm-yes").getBoundingClientRect();
  return pointer.x < left - APART || pointer.x > right + APART || pointer.y < top - APART || pointer.y > bottom + APART;
}

// Puts the question where its button is apart from the pointer, with the keyboard on `focused`.
function place(focused) {
  const buttons = byId("confirm-no").parentElement;
  for (const [name, next] of PLACES) {
    byId("confirm").className = name;
    buttons.parentElement.insertBefore(buttons, next === null ? null : byId(next));
    focused.focus();
    if (isApart()) return;
  }
}

// The question's text has changed, and with it the place of its buttons.
export function placeAgain() {
  if (!byId("confirm").open) return;
  rest();
  place(byId("confirm").contains(document.activeElement) ? document.activeElement : byId("confirm-no"));
}

// Asks the teller to confirm, with the keyboard on "Back", so that a key held too long confirms nothing. `lines` are texts or elements. Resolves to whether it was confirmed.
export function confirmed(title, lines, yes) {
  const dialog = byId("confirm");
  if (dialog.open) return Promise.resolve(false);
  byId("confirm-title").textContent = title;
  byId("confirm-text").replaceChildren(...lines.map((line) => (line instanceof Node ? line : element("p", {}, line))));
  byId("confirm-yes").textContent = yes;
  dialog.returnValue = "";
  dialog.showModal();
  rest();
  place(byId("confirm-no"));
  return new Promise((resolve) => dialog.addEventListener("close", () => resolve(dialog.returnValue === "yes"), { once: true }));
}

export function startQuestions() {
  for (const name of /** @type {const} */ (["pointerdown", "pointermove"])) addEventListener(name, (event) => Object.assign(pointer, { x: event.clientX, y: event.clientY }), true);
  byId("confirm-yes").addEventListener("click", (event) => {
    if (!byId("confirm-yes").hasAttribute("aria-disabled")) return;
    event.preventDefault();
    rest();
  });
  // Another width or zoom moves the buttons.
  addEventListener("resize", placeAgain);
}
