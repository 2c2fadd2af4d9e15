// Scans: a scanner types a serial number and Enter, wherever the keyboard is. None is lost, and none presses a button. A scan that nothing takes where it comes is named, and waits until a sheet or
// a walk-in takes it.

import { beep } from "./beep.js";
import { byId, show } from "./elements.js";
import { onClick } from "./forms.js";
import { announce, clearNoted, notice } from "./notices.js";
import { placeAgain } from "./question.js";
import { readSerial, typedSerial } from "./typed.js";
import { HAND } from "./words.js";

// A key that comes within this many milliseconds of a letter is a scanner's.
const NEXT = 500;

// Some scanners send Enter twice. The second one is ignored if it comes within this many milliseconds.
const TWICE = 300;

// The fields for serial numbers, which take a scan themselves.
const FIELDS = "#in-hand, #filter, #serial, #walkin-serial";

// Keys that press a button or leave it.
const PRESSING = ["Enter", "Tab", "Escape", " "];

// A serial number at the end of what was typed into another field. In one for a number it may lack its EE.
const SCAN = /[A-Z][\s\p{Pd}.,]*[0-9][0-9\s\p{Pd}.,]*E[\s\p{Pd}.,]*E[\s.,;]*$/iu;
const SHORT = /[A-Z][\s\p{Pd}.,]*[0-9][0-9\s\p{Pd}.,]*E?E?[\s.,;]*$/iu;

// What was typed since the last other key, each letter with the field that it went to (or null) and the field's text before; when the last letter came; and when the last scan was read.
let letters = [];
let typed_at = -NEXT;
let read_at = -TWICE;

// Brings the field for bonds in hand into sight, once nothing follows a letter.
let typing;

// The scans that wait, by serial number, or by their text if that is none. And who takes scans: `canTake`, and `take`, which is given texts and returns how many of them it took.
const waiting = new Map();
const takers = [];

// ---- what waits

function showWaiting() {
  const names = [...waiting.keys()];
  const had_line = byId("confirm-scanned").textContent !== "";
  byId("scanned-text").textContent = names.length === 0 ? "" : HAND.waiting(names);
  byId("confirm-scanned").textContent = names.length === 0 ? "" : HAND.meanwhile(names);
  show(byId("scanned"), names.length > 0);
  if (names.length > 0 || had_line) placeAgain();
}

// Offers what waits to who can take it now.
export function takeWaiting() {
  const texts = [...waiting.values()];
  const taker = byId("confirm").open ? undefined : takers.find(({ canTake }) => canTake());
  if (texts.length > 0 && taker !== undefined) {
    const count = taker.take(texts);
    for (const name of [...waiting.keys()].slice(0, count)) waiting.delete(name);
  }
  showWaiting();
}

export function takeScans(canTake, take) {
  takers.push({ canTake, take });
}

// Has scans taken, or keeps them waiting.
export function receive(texts) {
  clearNoted();
  read_at = performance.now();
  for (const text of texts) waiting.set(readSerial(text) ?? text, text);
  takeWaiting();
  const left = texts.filter((text) => waiting.has(readSerial(text) ?? text));
  const unread = left.find((text) => readSerial(text) === null);
  if (unread !== undefined) notice("noted", HAND.no_serial(unread, typedSerial(unread).why));
  else if (left.length > 0) announce(HAND.waiting([...waiting.keys()]));
  if (unread !== undefined || (left.length > 0 && byId("confirm").open)) beep();
}

// Whether Enter is the second one of a scanner.
export function isTwice() {
  return performance.now() - read_at < TWICE;
}

// ---- what is typed

function isText({ key, ctrlKey, altKey, metaKey }) {
  return key.length === 1 && !ctrlKey && !altKey && !metaKey;
}

function stop(event) {
  event.preventDefault();
  event.stopImmediatePropagation();
}

function textOf(some) {
  return some.map(({ letter }) => letter).join("");
}

// Takes letters out of their field again, from the place `from` on. Returns their text.
function takeBack(from) {
  const some = letters.slice(from);
  letters = [];
  if (some.length > 0 && some[0].field !== null) {
    some[0].field.value = some[0].before;
    some[0].field.dispatchEvent(new Event("input", { bubbles: true }));
  }
  return textOf(some);
}

// In a field for something else a scan ends what was typed there, which stays.
function pressedIn(field, event) {
  if (letters[0]?.field !== field) letters = [];
  if (isText(event)) {
    letters.push({ letter: event.key, field, before: field.value });
  } else if (event.key === "Enter") {
    const scan = (field.inputMode === "numeric" ? SHORT : SCAN).exec(textOf(letters));
    if (scan !== null || (letters.length === 0 && isTwice())) stop(event);
    if (scan !== null) receive([takeBack(scan.index)]);
    letters = [];
  } else if (event.key !== "Shift") {
    letters = [];
  }
}

// Outside of fields letters go to the field for bonds in hand, if it is there. In a question and elsewhere they make the keys of buttons dead for a moment, and Enter or Tab ends a scan.
function pressedOutside(event) {
  const is_soon = performance.now() - typed_at < NEXT;
  if (!is_soon) letters = [];
  if (isText(event) && (event.key !== " " || is_soon)) typedOutside(event);
  else if (PRESSING.includes(event.key) && (is_soon || event.repeat)) stop(event);
  if (is_soon && ["Enter", "Tab"].includes(event.key) && letters.length > 1) receive([takeBack(0)]);
}

// The browser would scroll to a field that is out of sight at each letter, and Enter would bring the next bond into sight: a long sheet would jump twice at each scan. So such a letter is put in here, and
// the page moves to the field only if no other key follows soon, as if a person types.
function typedUnseen(field, event) {
  clearTimeout(typing);
  const { top, bottom } = field.getBoundingClientRect();
  const is_seen = top >= parseFloat(getComputedStyle(document.documentElement).scrollPaddingTop) && bottom <= innerHeight;
  if (is_seen || !isText(event) || event.isComposing || field.selectionStart !== field.value.length) return;
  event.preventDefault();
  field.value += event.key;
  field.dispatchEvent(new Event("input", { bubbles: true }));
  typing = setTimeout(() => field.scrollIntoView({ block: "nearest" }), NEXT);
}

function typedOutside(event) {
  const field = byId("in-hand");
  if (!byId("confirm").open && field.checkVisibility()) {
    field.addEventListener("focusin", (focusing) => focusing.stopPropagation(), { once: true });
    field.focus({ preventScroll: true });
    typedUnseen(field, event);
    return;
  }
  if (event.key === " ") event.preventDefault();
  letters.push({ letter: event.key, field: null, before: "" });
  typed_at = performance.now();
}

function typedForScan(field, event) {
  letters = [];
  if (field.id === "in-hand") typedUnseen(field, event);
}

function pressed(event) {
  const at = document.activeElement;
  if (byId("confirm").open || !at.matches("input:not([type=checkbox])")) pressedOutside(event);
  else if (at.matches(FIELDS)) typedForScan(at, event);
  else pressedIn(at, event);
}

// Gives the keyboard to a field for serial numbers, with the letters of a scan that came so far.
export function leadTo(field) {
  const from = letters.findIndex(({ letter }) => /[A-Z]/i.test(letter));
  if (from >= 0) field.value = takeBack(from);
  field.focus({ preventScroll: true });
}

// Makes the keys of buttons dead for a moment, as the keyboard comes to another one.
export function restKeys() {
  typed_at = performance.now();
}

export function startScans() {
  document.addEventListener("keydown", pressed, true);
  byId("confirm").addEventListener("close", () => byId("confirm").returnValue !== "yes" && takeWaiting());
  onClick(byId("forget-scans"), () => {
    waiting.clear();
    showWaiting();
  });
}
