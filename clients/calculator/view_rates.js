// The rates by which bonds are valued: those that the page ships, or a file's.

import shipped from "../../samples/rates.csv";
import { NO_BOOKS, withRates } from "./books.js";
import { byId, table } from "./elements.js";
import { readRates, writeRates } from "./files.js";
import { tell, tellFault, tellFaults } from "./notices.js";
import { saveFile } from "./saving.js";
import { rateText, sheetMonthText } from "./spelling.js";
import { changeIfSettled, state } from "./state.js";
import { TEXTS } from "./texts.js";

const bytesOf = (text) => new TextEncoder().encode(text);

export function ratesText() {
  return writeRates(state.books.rates);
}

export function showRates() {
  const { rates } = state.books;
  byId("rates-told").textContent = TEXTS.rates_told(rates.size, state.is_shipped);
  byId("shipped").hidden = state.is_shipped;
  const rows = [...rates].map(([from, terms]) => [sheetMonthText(from), rateText(terms.rate), rateText(terms.extension)]);
  byId("rate-table").replaceChildren(...table("", TEXTS.rate_columns, rows));
}

// Takes rates that were read. Whether they are in use.
function take({ rows, faults }, alone, is_shipped) {
  if (faults.length > 0) {
    tellFaults(faults);
    return false;
  }
  const done = withRates(state.books, rows, alone);
  if (done.refusal !== undefined) {
    tellFault(`${TEXTS.rates_kept} ${TEXTS.refusal(done.refusal)}`);
    return false;
  }
  const failure = changeIfSettled({ books: done.books, is_shipped });
  if (failure !== null) {
    tellFault(`${TEXTS.rates_kept} ${TEXTS.unvalued(failure)}`);
    return false;
  }
  tell(is_shipped ? TEXTS.rates_shipped : TEXTS.rates_added(done.added));
  return true;
}

export function takeShipped() {
  return take(readRates(bytesOf(shipped)), true, true);
}

// The shipped rates as `ratesText` writes rates.
export function shippedText() {
  return writeRates(withRates(NO_BOOKS, readRates(bytesOf(shipped)).rows, true).books.rates);
}

async function takeFile(event) {
  const [file] = event.target.files;
  if (file === undefined) return;
  try {
    take(readRates(new Uint8Array(await file.arrayBuffer())), byId("alone").checked, false);
  } catch (failure) {
    if (!(failure instanceof DOMException)) throw failure;
    tellFault(TEXTS.unreadable(file.name));
  }
  event.target.value = "";
}

export function beginRates() {
  byId("rate-file").addEventListener("change", takeFile);
  byId("shipped").addEventListener("click", takeShipped);
  byId("save-rates").addEventListener("click", () => {
    saveFile(TEXTS.files.rates, ratesText(), "text/csv");
    tell(TEXTS.saved(TEXTS.files.rates));
  });
}
