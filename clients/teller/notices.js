// The notices for a teller: the outcome of the last request, and what a request under way is doing. Both stand at the top of the window, however far the page is scrolled. A screen reader hears them
// from the page's one live region.

import { byId, element, show } from "./elements.js";
import { Unstored } from "./journal.js";
import { forbiddenInWords, HEAD, interruptedInWords, inWords, NOTICES, STEPS, TEXTS } from "./words.js";

// Has a screen reader say it, when it comes to it.
export function announce(text) {
  byId("live").textContent = text;
}

// What has the keyboard when no notice has it.
let focused = null;

// Remembers what has the keyboard, as a request begins: a button that is disabled meanwhile loses it.
export function keepFocus() {
  if (document.activeElement !== document.body && !byId("told").contains(document.activeElement)) focused = document.activeElement;
}

export function giveFocusBack() {
  if (focused?.isConnected) focused.focus();
}

function takeFocus(target) {
  keepFocus();
  target.focus({ preventScroll: true });
}

function closeButton() {
  const button = element("button", { type: "button", class: "plain close" }, HEAD.close);
  button.addEventListener("click", () => {
    clearNotices();
    giveFocusBack();
  });
  return button;
}

function isAct(part) {
  return part instanceof Element && part.querySelector("button, a") !== null;
}

// Shows a notice in place of the one before, and returns it. `kind` is "done", "noted" or "refused"; a refused one takes the keyboard, so that it can't be missed. Its buttons stay in sight, however long
// the text is.
export function notice(kind, says, advises, ...more) {
  const lines = [element("p", { class: "says" }, says)];
  if (advises) lines.push(element("p", {}, advises));
  const ends = element("div", { class: "ends" }, ...more.filter(isAct), closeButton());
  const made = element("div", { class: `notice ${kind}`, tabindex: "-1" }, ...lines, ...more.filter((part) => !isAct(part)), ends);
  byId("notices").replaceChildren(made);
  byId("told").scrollTop = 0;
  announce([...made.querySelectorAll("p")].map((line) => line.textContent).join(" "));
  // After a change of view has put the keyboard on its heading.
  if (kind === "refused") setTimeout(() => made.isConnected && takeFocus(made), 0);
  return made;
}

// A look-up that takes less than this isn't told.
const SOON = 400;

// Says that a look-up is under way, beside what was told before, with a button that calls `cancel`. Returns what says how far it is, and what takes it away.
export function asking(cancel) {
  const told = byId("asking");
  const stop = byId("stop-asking");
  const say = (text) => (told.querySelector("p").textContent = text);
  say(TEXTS.asking);
  stop.onclick = cancel;
  const timer = setTimeout(() => {
    show(told, true);
    announce(TEXTS.asking);
  }, SOON);
  const end = () => {
    clearTimeout(timer);
    if (stop.onclick !== cancel) return;
    const had_focus = told.contains(document.activeElement);
    show(told, false);
    if (had_focus) giveFocusBack();
  };
  return { say, end };
}

export function clearNotices() {
  byId("notices").replaceChildren();
}

// Clears what was noted of a form, as the teller goes on with it.
export function clearNoted() {
  byId("notices").querySelector(".noted")?.remove();
}

// What those who look after the counter ask for: the code, and the entry in the proxy's log.
function codeLine(answer, ...more) {
  const code = answer.code === undefined ? "" : NOTICES.code(answer.name, answer.code);
  const text = [code, ...more, answer.entry ? NOTICES.entry(answer.entry) : ""].filter((one) => one !== "").join(" ");
  return text === "" ? [] : [element("p", { class: "code" }, text)];
}

// Whether it answers a payment before which the page registered the bonds.
function isAfterRegistration(answer) {
  return answer.request?.registered !== undefined;
}

// A refusal or a fault, in words.
export function tellRefused(answer, ...more) {
  const { says, advises } = inWords(answer);
  notice("refused", says, advises, ...more, ...codeLine(answer, answer.kind === "refused" && !isAfterRegistration(answer) ? NOTICES.nothing_changed : ""));
}

// A request that the proxy didn't pass on; `path` is null for a look-up.
export function tellForbidden(answer, path, ...more) {
  const { says, advises } = forbiddenInWords(answer.why, path);
  notice("refused", isAfterRegistration(answer) ? says : NOTICES.nothing_done(says), advises, ...more, ...codeLine(answer));
}

// A look-up that the counter didn't answer.
export function tellUnanswered(answer) {
  notice("refused", inWords(answer).says, NOTICES.try_again, ...codeLine(answer));
}

// What of a look-up's list stands in the list's own place.
export function unansweredLine(answer) {
  const { says } = answer.kind === "forbidden" ? forbiddenInWords(answer.why, null) : inWords(answer);
  return element("p", {}, says);
}

// What went wrong in the page itself, or in the browser's storage. An open request is in the journal.
export function tellFailed(error) {
  if (error instanceof Unstored) {
    const { says, advises } = inWords({ kind: "unstored", fault: error.fault });
    notice("refused", `${says} ${NOTICES.not_sent}`, advises);
    return;
  }
  const reload = element("button", { type: "button" }, HEAD.reload);
  reload.addEventListener("click", () => location.reload());
  notice("refused", HEAD.failed, HEAD.failed_help, element("p", { class: "buttons" }, reload));
}

// Says that the reply is perhaps that of an earlier attempt. Empty after one attempt.
export function earlierSendings({ kind, request }) {
  return request.sent < 2 ? "" : interruptedInWords(kind, request.sent);
}

let countdown = null;

function countDown(milliseconds) {
  const bar = /** @type {HTMLProgressElement} */ (document.getElementById("progress-bar"));
  const end = performance.now() + milliseconds;
  clearInterval(countdown);
  countdown = setInterval(() => {
    bar.value = Math.max(0, 1 - (end - performance.now()) / milliseconds);
  }, 100);
}

// Once for a request: then the teller may look up something else meanwhile.
let has_taken_focus = false;

// Shows a step of a request under way. The first time that no reply comes, it takes the keyboard.
export function tellStep(step) {
  const is_pausing = step.step === "pausing";
  const [first, rest] = STEPS[step.step](step);
  byId("progress-text").replaceChildren(...(first === "" ? [] : [element("strong", {}, first), " "]), rest);
  byId("progress-code").replaceChildren(...(is_pausing ? codeLine(step.answer) : []));
  byId("progress").className = "on";
  announce(byId("progress-text").textContent);
  show(byId("progress-bar"), is_pausing);
  show(byId("send-now"), is_pausing);
  clearInterval(countdown);
  if (is_pausing) tellPause(step.milliseconds);
}

function tellPause(milliseconds) {
  countDown(milliseconds);
  byId("told").scrollTop = 0;
  if (!has_taken_focus) takeFocus(byId("progress-text"));
  has_taken_focus = true;
}

// Ends what was told of the steps. The keyboard goes back, if it was there.
export function endSteps() {
  const had_focus = byId("progress").contains(document.activeElement) || document.activeElement === document.body;
  clearInterval(countdown);
  has_taken_focus = false;
  byId("progress-text").textContent = "";
  byId("progress-code").replaceChildren();
  byId("progress").className = "";
  for (const id of ["progress-bar", "send-now"]) show(byId(id), false);
  return had_focus;
}

// Brings what takes the keyboard into sight whole. Firefox by itself scrolls only to what is out of sight altogether, so what is partly under a notice or the bar would stay there. Nothing moves while a
// pointer is pressed.
function keepInSight(told, bar) {
  let is_pressed = false;
  addEventListener("pointerdown", () => (is_pressed = true), true);
  for (const name of ["pointerup", "pointercancel"]) addEventListener(name, () => (is_pressed = false), true);
  document.body.addEventListener("focusin", (event) => {
    const target = /** @type {HTMLElement} */ (event.target);
    const is_over = told.contains(target) || bar.contains(target);
    if (!is_pressed && !is_over && target.matches(":focus-visible")) target.scrollIntoView({ block: "nearest", inline: "nearest" });
  });
}

// Keeps what has the keyboard from under the notices and the bar of Pay, for as long as they are there, and lets Escape close a notice.
export function startNotices() {
  const told = byId("told");
  const bar = byId("pay-bonds");
  const measure = () => {
    document.documentElement.style.setProperty("--told", `${told.offsetHeight}px`);
    document.documentElement.style.setProperty("--bar", `${bar.offsetHeight}px`);
  };
  const observer = new ResizeObserver(measure);
  observer.observe(told);
  observer.observe(bar);
  keepInSight(told, bar);
  told.addEventListener("keydown", (event) => {
    if (event.key === "Escape") /** @type {HTMLElement} */ (told.querySelector("#notices .close"))?.click();
  });
}
