// One field for the bonds in the teller's hand. Their serial numbers are typed, pasted or scanned, each with Enter. Each bond is chosen on the sheet, or named with why it isn't. Enter in the empty
// field asks to pay.

import { beep } from "./beep.js";
import { byId, element, show } from "./elements.js";
import { button, onSubmit } from "./forms.js";
import { notice } from "./notices.js";
import { isTwice, receive } from "./scans.js";
import { serialsIn } from "./typed.js";
import { HAND } from "./words.js";

// What wasn't chosen, by its serial number, or by what was typed if that is none: the reason, and the elements that stand behind it.
const missed = new Map();

function showMissed() {
  const items = [...missed.values()].map(({ why, more }) => element("li", {}, element("span", {}, why), ...more));
  const clear = button(HAND.clear, () => {
    clearMissed();
    byId("in-hand").focus();
  });
  const help = [...missed.values()].some(({ more }) => more.length > 0) ? [element("p", { class: "help" }, HAND.not_here)] : [];
  const parts = [element("h2", { id: "missed-title" }, HAND.missed(items.length)), element("ul", { "aria-labelledby": "missed-title" }, ...items), ...help, clear];
  byId("missed").replaceChildren(...(items.length === 0 ? [] : parts));
}

// Puts what wasn't chosen on the list, until it is chosen or the list is cleared.
export function miss(name, why, ...more) {
  missed.set(name, { why, more });
  showMissed();
  notice("noted", why);
  beep();
}

// Why it wasn't chosen, or null.
export function whyMissed(name) {
  return missed.get(name)?.why ?? null;
}

// Takes a bond that was chosen after all off the list.
export function found(serial) {
  if (missed.delete(serial)) showMissed();
}

function clearMissed() {
  missed.clear();
  showMissed();
}

export function clearHand() {
  clearMissed();
  byId("hand-last").textContent = "";
}

// Shows the field, if bonds can be chosen on the sheet that is shown.
export function showHand(is_shown) {
  show(byId("hand"), is_shown);
}

// Starts the field. `pay` is what Enter does in the empty field.
export function startHand(pay) {
  const field = byId("in-hand");
  onSubmit(byId("hand"), async () => {
    const texts = serialsIn(field.value);
    field.value = "";
    if (texts.length > 0) receive(texts);
    else if (!isTwice()) await pay();
  });
}
