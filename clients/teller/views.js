// Shows the view that the address's hash names. The keyboard goes to its heading.

import { byId, show } from "./elements.js";
import { HEAD } from "./words.js";

const VIEWS = ["day", "pay", "walkin", "tickets", "batches", "interest"];
const OTHERS = ["start", "waiting"];

function showOnly(name) {
  show(byId("starting"), false);
  for (const view of [...VIEWS, ...OTHERS]) show(byId(view), view === name);
  for (const link of /** @type {NodeListOf<HTMLAnchorElement>} */ (document.querySelectorAll("#views a"))) {
    if (link.hash === `#${name}`) link.setAttribute("aria-current", "page");
    else link.removeAttribute("aria-current");
  }
  document.title = HEAD.title(byId(name).querySelector("h1").textContent);
}

// What gets the keyboard in the view that comes, in place of its heading.
let landing = null;

function focusFirst(name) {
  const first = landing === null ? byId(name).querySelector("h1") : byId(landing);
  landing = null;
  first.focus({ preventScroll: true });
  scrollTo(0, 0);
}

function named() {
  const name = location.hash.slice(1);
  return VIEWS.includes(name) ? name : "day";
}

// Shows a view that has no address: before a desk is chosen, or while another tab has the journal.
export function showOther(name) {
  show(byId("views"), false);
  showOnly(name);
}

// Shows a view. The keyboard goes to the element `id`, if one is given.
export function goTo(name, id = null) {
  if (named() !== name) {
    landing = id;
    location.hash = name;
    return;
  }
  showOnly(name);
  if (id !== null) byId(id).focus();
}

// Starts the views. `entered` is called with the name of each view that is shown.
export function startViews(entered) {
  show(byId("views"), true);
  showOnly(named());
  entered(named());
  addEventListener("hashchange", () => {
    showOnly(named());
    entered(named());
    focusFirst(named());
  });
}
