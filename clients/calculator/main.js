// Starts the page: its texts, its library, and what was kept.

import { Chart } from "./chart.js";
import { byId, element, options } from "./elements.js";
import { beginKeeping, keepOn } from "./keeping.js";
import { libraryOf } from "./modules.js";
import { beginNotices, tellFault, tellNothing } from "./notices.js";
import { RELEASED } from "../teller/released.js";
import { LAST_MONTH, monthOf } from "./spelling.js";
import { change, state, watch } from "./state.js";
import { TEXTS } from "./texts.js";
import { inventoryCurve } from "./timeline.js";
import { beginAdding, showOne } from "./view_add.js";
import { beginBond } from "./view_bond.js";
import { beginRates, showRates, takeShipped } from "./view_rates.js";
import { beginSummary, showSummary } from "./view_summary.js";
import { beginTable, showTable } from "./view_table.js";

let chart = null;
let drawn = {};
let waiting = 0;

function writeTexts() {
  document.title = TEXTS.title;
  document.documentElement.lang = TEXTS.language;
  for (const one of /** @type {NodeListOf<HTMLElement>} */ (document.querySelectorAll("[data-text]"))) one.textContent = TEXTS[one.dataset.text];
  byId("about-list").replaceChildren(...TEXTS.about.map((text) => element("li", {}, text)));
}

// The curve of all bonds is drawn after the rest has been shown, and only if it has changed.
function showCurve() {
  const { books, library, month } = state;
  byId("curve").hidden = books.bonds.size === 0;
  if (books === drawn.books && library === drawn.library && month === drawn.month) return;
  clearTimeout(waiting);
  waiting = setTimeout(() => {
    drawn = { books, library, month };
    const points = inventoryCurve(library, books.rates, [...books.bonds.values()]);
    const words = points.length === 0 ? {} : { label: TEXTS.curve_says(points), caption: TEXTS.curve_title, now: month };
    chart.show(points, words);
  });
}

function showModule() {
  byId("module").value = String(state.bits);
  byId("module-told").textContent = TEXTS.module_told(state.bits, state.library.version);
}

async function chooseModule() {
  const wanted = Number(byId("module").value);
  const { bits, library } = await libraryOf(wanted);
  change({ bits, library });
  if (bits !== wanted) tellFault(TEXTS.module_missing);
}

// The value month that the device's clock says. Before this release, and after 2199, the clock must be wrong.
function takeClock() {
  const now = new Date();
  const said = 12 * now.getFullYear() + now.getMonth();
  const month = Math.min(Math.max(said, monthOf(RELEASED.slice(0, 7))), LAST_MONTH);
  change({ month });
  if (month !== said) tellFault(TEXTS.clock_wrong(said, month));
}

// On paper the sheet says when it was printed.
function showDate() {
  byId("printed").textContent = TEXTS.printed(new Date());
}

function installOffline() {
  if (!location.protocol.startsWith("http")) return;
  document.head.append(element("link", { rel: "manifest", href: "manifest.webmanifest" }));
  navigator.serviceWorker?.register("sw.js").catch(() => {});
}

function begin() {
  chart = new Chart(byId("curve-figure"));
  for (const one of [beginNotices, beginSummary, beginAdding, beginTable, beginRates, beginBond]) one();
  options(byId("module"), Object.entries(TEXTS.modules).reverse(), state.bits);
  byId("module").addEventListener("input", chooseModule);
  addEventListener("beforeprint", showDate);
  showDate();
  for (const one of [showOne, showSummary, showTable, showRates, showCurve, showModule]) watch(one);
}

async function start() {
  writeTexts();
  try {
    Object.assign(state, await libraryOf(64), { month: LAST_MONTH });
  } catch {
    tellFault(TEXTS.module_failed);
    return;
  }
  begin();
  takeShipped();
  tellNothing();
  takeClock();
  await beginKeeping();
  watch(keepOn);
  document.documentElement.dataset.ready = "";
  installOffline();
}

start();
