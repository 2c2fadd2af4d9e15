// Keeps the inventory and the rates in this browser while the box is ticked. Nothing is written before what is there was read. If
// another tab wrote in the meantime, its changes and this tab's are merged; what can't be read or merged is left there, and the page says so.

import { mergedBooks, NO_BOOKS, sortedBonds, withBonds, withRates } from "./books.js";
import { byId, write as writeText } from "./elements.js";
import { readInventory, readRates, writeInventory, writeRates } from "./files.js";
import { hasRecord, readRecord, replaceRecord } from "./kept_store.js";
import { tell, tellFault } from "./notices.js";
import { saveFile } from "./saving.js";
import { monthText } from "./spelling.js";
import { changeIfSettled, state } from "./state.js";
import { TEXTS } from "./texts.js";
import { ratesText, shippedText } from "./view_rates.js";

const CHANNEL = new BroadcastChannel("savings-bond-calculator");
const LOOK_MILLISECONDS = 5000;
// What this tab last read or wrote.
let base = { version: undefined, books: NO_BOOKS };
let is_on = false;
let unreadable = null;
// Reads and writes go one after another.
let turn = Promise.resolve();

const isWritten = () => state.books === base.books;

/** Whether all that the page has is kept. */
export function isKept() {
  return is_on && isWritten();
}

function show() {
  byId("keep").checked = is_on;
  writeText(byId("keep-state"), !is_on ? "" : isWritten() ? TEXTS.keep_state.kept : TEXTS.keep_state.waiting);
  byId("keep-left").hidden = unreadable === null;
}

function stop(text) {
  is_on = false;
  tellFault(text);
}

function textOf(record) {
  return record.text ?? `${record.inventory}\n${record.rates}\n${record.month}\n`;
}

const bytesOf = (text) => new TextEncoder().encode(text);

/**
 * Reads one kept text by steps that each give `faults` or a `refusal`, and throws the text of what is wrong.
 * @param {{faults?: any[], refusal?: any, rows?: any[], books?: any}} given
 */
function sound({ faults = [], refusal, ...read }) {
  if (faults.length > 0) throw new Error(TEXTS.fault(faults[0]));
  if (refusal !== undefined) throw new Error(TEXTS.refusal(refusal));
  return read;
}

function booksOf({ inventory, rates }) {
  if (![inventory, rates].every((text) => typeof text === "string")) throw new Error(TEXTS.kept_incomplete);
  const rated = sound(withRates(NO_BOOKS, sound(readRates(bytesOf(rates))).rows, true)).books;
  const { rows } = sound(readInventory(bytesOf(inventory), Infinity));
  return rows.length === 0 ? rated : sound(withBonds(rated, rows)).books;
}

// Takes what another tab or an earlier visit kept. Throws the text of what is wrong.
function take(record) {
  const found = booksOf(record);
  const merged = state.books === base.books ? found : sound(mergedBooks(base.books, state.books, found)).books;
  const failure = changeIfSettled({ books: merged, is_shipped: writeRates(merged.rates) === shippedText(), is_saved: merged.bonds.size === 0 });
  if (failure !== null) throw new Error(TEXTS.unvalued(failure));
  base = { version: record.version, books: found };
}

// What was kept is gone, so the next time that the box is ticked all of it is written.
function lose() {
  base = { ...base, version: undefined };
  stop(TEXTS.keep_ended);
}

function takeOther(record) {
  if (record === undefined) return lose();
  try {
    take(record);
  } catch (failure) {
    stop(TEXTS.keep_conflict(failure.message));
  }
}

// Earlier versions of the page want a month.
function recordNow() {
  return { version: `${Date.now()} ${Math.random()}`, inventory: writeInventory(sortedBonds(state.books.bonds)), rates: ratesText(), month: monthText(state.month) };
}

async function write() {
  while (is_on && !(isWritten() && base.version !== undefined)) {
    const { books } = state;
    const record = recordNow();
    if (await replaceRecord(base.version, record)) {
      base = { version: record.version, books };
      CHANNEL.postMessage(record.version);
    } else {
      takeOther(await readRecord());
    }
  }
}

async function pull(version) {
  if (is_on && version !== base.version) takeOther(await readRecord());
}

// Whether what the page says it keeps is still there: the browser's data may have been cleared.
async function look() {
  if (is_on && isWritten() && !(await hasRecord())) lose();
}

// Removes what is kept. What another tab added to it is shown here first.
async function remove() {
  while (!(await replaceRecord(base.version, null))) {
    const record = await readRecord();
    if (record === undefined) break;
    try {
      take(record);
    } catch (failure) {
      return stop(TEXTS.keep_conflict(failure.message));
    }
  }
  base = { ...base, version: undefined };
  CHANNEL.postMessage(null);
  tellFault(TEXTS.not_kept);
}

// Does a step after those that wait. A browser that refuses it keeps what it kept before.
function later(step, ...given) {
  turn = turn.then(() => step(...given)).catch(() => stop(TEXTS.keep_failed)).then(show);
  return turn;
}

// Keeps what was changed.
export function keepOn() {
  if (is_on && !isWritten()) later(write);
  show();
}

async function begin() {
  if (unreadable !== null && !confirm(TEXTS.ask_replace)) return;
  if (unreadable !== null) base = { ...base, version: unreadable.version };
  unreadable = null;
  is_on = true;
  await write();
  if (is_on) tell(TEXTS.kept);
}

function toggle() {
  if (byId("keep").checked) return later(begin);
  is_on = false;
  return later(remove);
}

// Shows what an earlier visit kept. What can't be read is left, and the page offers it as a file.
async function takeUp() {
  let record;
  try {
    record = await readRecord();
  } catch {
    return stop(TEXTS.kept_unread);
  }
  if (record === undefined) return;
  try {
    take(record);
    is_on = true;
    if (record.version === undefined) await write();
    if (state.books.bonds.size > 0) tell(TEXTS.taken_up(state.books.bonds.size));
  } catch (failure) {
    unreadable = record;
    stop(TEXTS.kept_unreadable(failure.message));
  }
}

export function beginKeeping() {
  base = { ...base, books: state.books };
  byId("keep").addEventListener("change", toggle);
  byId("keep-save").addEventListener("click", () => saveFile(TEXTS.files.kept, textOf(unreadable), "text/plain"));
  CHANNEL.addEventListener("message", ({ data }) => later(pull, data));
  const lookIfSeen = () => document.hidden || later(look);
  for (const name of ["focus", "pageshow"]) addEventListener(name, lookIfSeen);
  document.addEventListener("visibilitychange", lookIfSeen);
  setInterval(lookIfSeen, LOOK_MILLISECONDS);
  return later(takeUp);
}
