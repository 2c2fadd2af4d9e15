// The page: it takes the journal of this browser, has a desk chosen, sends again what is open, and starts the views.

import { byId, element, fill, show } from "./elements.js";
import { button, onSubmit, readFields } from "./forms.js";
import { Journal, takeJournal } from "./journal.js";
import { startFrom, Unanswered } from "./latest.js";
import { asking, clearNotices, earlierSendings, endSteps, giveFocusBack, keepFocus, notice, startNotices, tellFailed, tellForbidden, tellRefused, tellStep, tellUnanswered } from "./notices.js";
import { askUser } from "./queries.js";
import { startQuestions } from "./question.js";
import { receiptOf, Receipts } from "./receipts.js";
import { startScans } from "./scans.js";
import { isNotDone, Sender } from "./sender.js";
import { laterOf, readDesk } from "./spelling.js";
import { dayReplied, deskSums, enterDay, offerActs, showDay, startDayView } from "./view_day.js";
import { clearPay, enterPay, followDay, hasGoneOn, markPaid, startPayView } from "./view_pay.js";
import { enterInterest, startInterest } from "./view_interest.js";
import { startRecords } from "./view_records.js";
import { enterBatches, enterTickets, lookUpTicket, showBatch, showTicket, startLookUps } from "./view_lookups.js";
import { nameMonths } from "./typed.js";
import { clearWalkIn, enterWalkIn, focusWalkIn, followWalkIn, offerWalkIn, startWalkIn } from "./view_walkin.js";
import { showOther, startViews } from "./views.js";
import { ENTER, FORMATS, HEAD, PAY, TEXTS, unkeptInWords, WALK_IN } from "./words.js";

const NOT_OPEN = [42, 43];
const ALREADY_PAID = 52;
const ENTERED = { day: enterDay, pay: enterPay, walkin: enterWalkIn, tickets: enterTickets, batches: enterBatches, interest: enterInterest };

// What the views know of the page.
class Page {
  #journal;
  #receipts;
  #sender;
  // Ends the look-up that is under way.
  #stop_look_up = () => {};
  user = null;

  constructor(journal, receipts) {
    this.#journal = journal;
    this.#receipts = receipts;
    this.#sender = new Sender(journal, tellStep);
    byId("send-now").addEventListener("click", () => {
      byId("progress-text").focus({ preventScroll: true });
      this.#sender.sendNow();
    });
    addEventListener("online", () => this.#sender.sendNow());
  }

  get record() {
    return this.#journal.record;
  }

  get isOpen() {
    return this.#sender.isOpen;
  }

  get receipts() {
    return this.#receipts;
  }

  async keep(changes) {
    await this.#journal.change(changes);
    this.showState();
  }

  // Remembers a day that is closed, if it is later than those that this page knows.
  async knowClosed(day) {
    const closed = laterOf(this.record.closed, day);
    if (closed !== this.record.closed) await this.#journal.change({ closed });
  }

  showState() {
    const { desk, day } = this.record;
    byId("state").textContent = HEAD.state(desk, day);
    showDay(this);
    followDay(this);
    followWalkIn(this);
  }

  // Shows the user's name, and offers what the user's groups may do. Without the proxy's word on the user the page has no name to show, and offers everything.
  showUser(answer) {
    const { name, groups } = answer.kind === "user" ? answer : { name: null, groups: null };
    this.user = name;
    offerActs(groups);
    offerPay(groups);
    offerWalkIn(groups);
    show(byId("user"), name !== null);
    byId("user").textContent = name === null ? "" : HEAD.user(name);
    if (answer.kind === "forbidden") tellForbidden(answer, null);
  }

  showBatch(batch) {
    return showBatch(this, batch);
  }

  // Resolves to what `ask` finds out by look-ups; it gets a signal that ends them, and a function that says how far it is. If a later look-up or a request overtakes it, or the teller ends it, it never
  // resolves.
  async lookUp(ask) {
    this.#stop_look_up();
    const control = new AbortController();
    const stop = () => {
      control.abort();
      told.end();
    };
    const told = asking(stop);
    this.#stop_look_up = stop;
    try {
      const answer = await ask(control.signal, told.say).catch(answerOf);
      if (!control.signal.aborted) return answer;
    } finally {
      stop();
    }
    return new Promise(() => {});
  }

  tellUnanswered(answer) {
    if (answer.kind === "forbidden") tellForbidden(answer, null);
    else if (answer.kind === "refused" || answer.kind === "fault") tellRefused(answer);
    else tellUnanswered(answer);
  }

  earlier(answer) {
    const text = earlierSendings(answer);
    return text === "" ? [] : [element("p", { class: "earlier" }, text)];
  }

  // Sends a new request and shows its outcome. `more` stays with it in the journal (sender.js).
  async act(path, fields, more) {
    clearNotices();
    await this.#through(() => this.#sender.submit(path, fields, { ...more, teller: this.user }));
  }

  // Sends the request that an earlier life of this page left open, and shows its outcome.
  async resume() {
    await this.#through(() => this.#sender.finish());
  }

  async #through(sent) {
    this.#stop_look_up();
    keepFocus();
    this.#rest(true);
    try {
      const answer = await sent();
      const receipt = answer.kind === "ticket" ? receiptOf(answer, this.record.desk, this.#payerOf(answer)) : null;
      if (isNotDone(answer)) await this.#sender.forget({});
      const changes = this.#shown(answer, receipt);
      if (!isNotDone(answer)) await this.#sender.forget(changes, async () => receipt !== null && this.#receipts.keep(receipt));
    } catch (error) {
      tellFailed(error);
    }
    this.#rest(false);
    if (endSteps()) giveFocusBack();
    this.showState();
  }

  // While a request is open no other can be made.
  #rest(is_resting) {
    for (const form of /** @type {NodeListOf<HTMLFieldSetElement>} */ (document.querySelectorAll("fieldset.acts"))) form.disabled = is_resting;
  }

  // Shows an answer, a ticket with its receipt; returns what the journal then keeps.
  #shown(answer, receipt) {
    this.#stop_look_up();
    if (answer.kind === "ticket") return this.#shownTicket(answer, receipt);
    if (answer.kind === "opened" || answer.kind === "batch") return dayReplied(this, answer);
    if (answer.kind === "forbidden") tellForbidden(answer, answer.request.path, ...registeredLines(answer.request));
    else this.#tellRefused(answer);
    return NOT_OPEN.includes(answer.code) ? { day: null } : {};
  }

  #shownTicket(ticket, receipt) {
    const { shown } = ticket.request;
    const paid = this.#paidWith(ticket);
    const more = this.#showPaid(ticket, paid.tickets.at(-1), receipt);
    if (typeof shown === "string" && BigInt(shown) !== ticket.total) this.#tellOtherSum(ticket, BigInt(shown), ...more);
    else notice("done", PAY.paid(ticket.ticket), PAY.desk_so_far(deskSums({ paid, day: ticket.day })), ...this.earlier(ticket), ...registeredLines(ticket.request, true), ...more);
    return { last: ticket.ticket, paid };
  }

  // Shows the ticket, unless the teller has gone on to the next customer meanwhile: then what was typed stays, and the notice has the way to the ticket.
  #showPaid(ticket, entry, receipt) {
    const is_walk_in = ticket.request.registered !== undefined;
    if (is_walk_in) clearWalkIn();
    if (!hasGoneOn()) {
      if (!is_walk_in) clearPay();
      showTicket(this, ticket, receipt, entry, is_walk_in ? focusWalkIn : undefined);
      return [];
    }
    markPaid(this, ticket.lines.map((line) => line.serial), ticket.ticket);
    return [element("p", {}, PAY.pay_out(ticket.total, ticket.payee)), this.#ticketButton(ticket.ticket)];
  }

  // Who paid: by the time the reply comes, another user may be signed in, or the page may not know the user yet, as after a reload.
  #payerOf(ticket) {
    return ticket.request.teller ?? this.user;
  }

  // What the journal keeps of this desk's tickets of the day, with this one last. A reply that comes again counts once.
  #paidWith(ticket) {
    const { paid } = this.record;
    const tickets = paid?.day === ticket.day ? paid.tickets : [];
    const entry = { ticket: ticket.ticket, bonds: ticket.lines.length, total: ticket.total.toString(), number: ticket.request.number, at: ticket.at, teller: this.#payerOf(ticket), printed: false };
    return { day: ticket.day, tickets: [...tickets.filter((one) => one.ticket !== entry.ticket), entry] };
  }

  #tellOtherSum(ticket, shown, ...more) {
    notice("refused", PAY.other_sum(ticket.ticket), PAY.other_sum_help(ticket.total, shown), ...this.earlier(ticket), ...registeredLines(ticket.request, true), ...more);
  }

  #tellRefused(answer) {
    const is_paid = answer.code === ALREADY_PAID;
    if (is_paid) markPaid(this, [answer.serial], answer.ticket);
    const more = is_paid ? [this.#ticketButton(answer.ticket)] : [];
    tellRefused(answer, ...this.earlier(answer), ...registeredLines(answer.request), ...more);
  }

  #ticketButton(number) {
    return element("p", {}, button(PAY.show_ticket(number), () => lookUpTicket(this, number)));
  }
}

// A user who is no teller can look at sheets, and not pay. If the groups aren't known, anybody can.
function offerPay(groups) {
  const may = groups === null || groups.includes("teller");
  show(byId("pay-barred"), !may);
  /** @type {HTMLButtonElement} */ (byId("pay-button")).disabled = !may;
}

// What was registered before a payment, or that a registration without a reply of its own pays nothing.
function registeredLines({ path, registered }, is_paid = false) {
  if (path === "/bonds") return [element("p", {}, WALK_IN.nothing_paid)];
  return registered === undefined ? [] : [element("p", {}, WALK_IN.registered(registered, is_paid))];
}

// The answer of a look-up among several that wasn't answered.
function answerOf(error) {
  if (error instanceof Unanswered) return error.answer;
  throw error;
}

function chosenDesk(journal) {
  showOther("start");
  return new Promise((resolve) => {
    onSubmit(byId("start").querySelector("form"), async () => {
      const fields = readFields([byId("desk"), readDesk, ENTER.desk]);
      if (fields === null) return;
      await journal.choose(...fields);
      resolve();
    });
  });
}

// Says above the sheet why an open payment might not be kept. Before the first payment there is time to mend it.
function tellKept(why) {
  byId("unkept").textContent = why === null ? "" : unkeptInWords(why);
  show(byId("unkept"), why !== null);
}

async function start() {
  fill(TEXTS, FORMATS.language);
  nameMonths(FORMATS.months);
  startNotices();
  startQuestions();
  startScans();
  const user = askUser();
  await takeJournal(() => showOther("waiting"));
  const journal = await Journal.open();
  if (journal.record === null) await chosenDesk(journal);
  journal.testKept(tellKept);
  startFrom(journal.record.last);
  startFrom(journal.record.tally?.through);
  const page = new Page(journal, await Receipts.open());
  startDayView(page);
  startPayView(page);
  startWalkIn(page);
  startLookUps(page);
  startInterest(page);
  startRecords(page);
  page.showState();
  user.then((answer) => page.showUser(answer));
  const entered = (name) => ENTERED[name](page);
  startViews(entered);
  byId("views").addEventListener("click", clearNotices);
  if (page.isOpen) await page.resume();
}

addEventListener("unhandledrejection", (event) => {
  event.preventDefault();
  tellFailed(event.reason);
});

start().catch(() => {
  const reload = element("p", { class: "buttons" }, button(HEAD.reload, () => location.reload()));
  notice("refused", HEAD.no_start, HEAD.no_start_help, reload);
});
