// What the page tells: one live region at the top of the window, with a list of faults or remarks below its sentence if there are any. The region is always
// there, since a screen reader tells only changes of one that it knows.

import { byId, element } from "./elements.js";
import { TEXTS } from "./texts.js";

const MOST_FAULTS = 20;

function show(text, kind, list) {
  byId("told-box").className = kind;
  byId("told-text").textContent = text;
  byId("told-list").replaceChildren(...list.map((line) => element("li", {}, line)));
}

export function tellNothing() {
  show("", "none", []);
}

export function tell(text, list = []) {
  show(text, "done", list);
}

export function tellFault(text) {
  show(text, "refused", []);
}

// The first fault is the one that the counter names.
export function tellFaults(faults) {
  const more = faults.slice(1, MOST_FAULTS).map(TEXTS.fault);
  const rest = faults.length > MOST_FAULTS ? [TEXTS.more_faults(faults.length - MOST_FAULTS)] : [];
  show(`${TEXTS.nothing_added} ${TEXTS.fault(faults[0])}`, "refused", [...more, ...rest]);
}

/** Tells of a list some of whose rows have to be mended: what was understood, and what is wrong with each row. */
export function tellMending(text, wrong, hints = []) {
  const rest = wrong.length > MOST_FAULTS ? [TEXTS.more_faults(wrong.length - MOST_FAULTS)] : [];
  show(`${text} ${TEXTS.to_mend(wrong.length)} ${wrong[0]}`, "refused", [...hints, ...wrong.slice(1, MOST_FAULTS), ...rest]);
}

// What takes the keyboard is scrolled to below the box, and not under it.
function keepRoom() {
  const box = byId("told-box");
  new ResizeObserver(() => document.documentElement.style.setProperty("--told", `${box.offsetHeight}px`)).observe(box);
}

export function beginNotices() {
  keepRoom();
  byId("told-close").addEventListener("click", () => {
    tellNothing();
    byId("main").focus();
  });
}
