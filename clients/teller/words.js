// Every word of the page, and how it spells days, months, money and amounts, in the tables that the bank's own words (bank.js) are laid over. No bank edits this file.
// What is shown before this file is loaded, or if it can't be, stands in index.html. `tests/clients` tests that no word of the page stands elsewhere, and that no code lacks a sentence.

import * as bank from "./bank.js";
import { daysFrom, monthOf, noonOf, printMoney } from "./spelling.js";

// ---- days, money, numbers

const counted = (count, one, many) => `${numberInWords(count)} ${count === 1 ? one : many}`;
const twoDigits = (number) => String(number).padStart(2, "0");

const SMALL = ["zero", "one", "two", "three", "four", "five", "six", "seven", "eight", "nine", "ten", "eleven", "twelve", "thirteen", "fourteen", "fifteen", "sixteen", "seventeen", "eighteen", "nineteen"];
const TENS = ["", "", "twenty", "thirty", "forty", "fifty", "sixty", "seventy", "eighty", "ninety"];
const GROUPS = ["", " thousand", " million", " billion"];

function belowHundred(number) {
  if (number < 20) return SMALL[number];
  return TENS[Math.floor(number / 10)] + (number % 10 === 0 ? "" : `-${SMALL[number % 10]}`);
}

function belowThousand(number) {
  const rest = number % 100 === 0 && number > 0 ? "" : belowHundred(number % 100);
  if (number < 100) return rest;
  return `${SMALL[Math.floor(number / 100)]} hundred${rest === "" ? "" : ` ${rest}`}`;
}

function dollarsInWords(dollars) {
  const groups = [];
  for (let rest = dollars, place = 0; rest > 0n; rest /= 1000n, place += 1) {
    if (rest % 1000n > 0n) groups.unshift(belowThousand(Number(rest % 1000n)) + GROUPS[place]);
  }
  const words = dollars === 0n ? "zero" : groups.join(" ");
  return `${words[0].toUpperCase()}${words.slice(1)} ${dollars === 1n ? "dollar" : "dollars"}`;
}

function clockInWords(date) {
  return `${date.getHours() % 12 || 12}:${twoDigits(date.getMinutes())} ${date.getHours() < 12 ? "AM" : "PM"}`;
}

export const FORMATS = {
  language: "en",
  weekdays: ["Sunday", "Monday", "Tuesday", "Wednesday", "Thursday", "Friday", "Saturday"],
  months: ["January", "February", "March", "April", "May", "June", "July", "August", "September", "October", "November", "December"],
  month: (month) => `${FORMATS.months[Number(month.slice(5)) - 1]} ${month.slice(0, 4)}`,
  // As an American bank writes it: "February 6, 2012".
  day: (day) => `${FORMATS.months[Number(day.slice(5, 7)) - 1]} ${Number(day.slice(8))}, ${day.slice(0, 4)}`,
  weekday: (day) => `${FORMATS.weekdays[noonOf(day).getUTCDay()]}, ${dayInWords(day)}`,
  // A moment in milliseconds, in this machine's time zone: its day and time, as "February 6, 2012, 2:05 PM".
  time: (moment) => {
    const date = new Date(moment);
    return `${FORMATS.months[date.getMonth()]} ${date.getDate()}, ${date.getFullYear()}, ${clockInWords(date)}`;
  },
  // A moment of the server's clock, in this machine's time zone, which it names.
  server_time: (moment) => {
    const zone = new Intl.DateTimeFormat(FORMATS.language, { timeZoneName: "short" }).formatToParts(moment).find((part) => part.type === "timeZoneName").value;
    return `${timeInWords(moment)} ${zone}`;
  },
  number: (number) => number.toLocaleString("en-US"),
  // Money as tellers read it, with a comma after each three digits.
  money: (cents) => `$${printMoney(cents).replace(/\B(?=([0-9]{3})+\.)/g, ",")}`,
  // The amount as on a check: "Five thousand sixty-two dollars and 07/100".
  amount: (cents) => `${dollarsInWords(cents / 100n)} and ${twoDigits(cents % 100n)}/100`,
  bonds: (count) => counted(count, "bond", "bonds"),
  tickets: (count) => counted(count, "ticket", "tickets"),
  seconds: (milliseconds) => (milliseconds < 1000 ? "half a second" : counted(milliseconds / 1000, "second", "seconds")),
};

export const monthInWords = (month) => FORMATS.month(month);
export const dayInWords = (day) => FORMATS.day(day);
export const weekdayInWords = (day) => FORMATS.weekday(day);
export const timeInWords = (moment) => FORMATS.time(moment);
export const serverTimeInWords = (moment) => FORMATS.server_time(moment);
export const numberInWords = (number) => FORMATS.number(number);
export const moneyInWords = (cents) => FORMATS.money(cents);
export const amountInWords = (cents) => FORMATS.amount(cents);
const bonds = (count) => FORMATS.bonds(count);
const tickets = (count) => FORMATS.tickets(count);

const MOST_NAMED = 3;

// The first names of some, and how many more they are.
export function namesInWords(names, most = MOST_NAMED) {
  return names.length <= most ? names.join(", ") : `${names.slice(0, most).join(", ")} and ${numberInWords(names.length - most)} more`;
}

// ---- the texts of index.html, by their names there

export const TEXTS = {
  title: "Counter",
  skip: "Skip to the content",
  name: "Savings bond counter",
  views: "Views",
  day: "Day",
  pay: "Pay",
  tickets: "Tickets",
  batches: "Batches",
  until_sent: "Until it is sent again",
  send_now: "Send it now",
  asking: "Asking the counter.",
  cancel: "Cancel",
  forget_scans: "Forget them",
  choose_desk: "Choose a desk",
  choose_desk_help: "Each page that works at the counter has its own desk, a number from 0 to 999. You choose it once for this browser. No other browser or program may use it.",
  desk: "Desk",
  work_at_desk: "Work at this desk",
  waiting: "The counter is open in another tab",
  waiting_help: "One page at a time works at a desk. This page continues when the other is closed.",
  to_pay: "Pay bonds",
  so_far: "This day so far",
  this_desk: "This desk",
  all_desks: "All desks",
  count_day: "Count again",
  close_day: "Close the day",
  close_day_help: "Its tickets are settled into a batch. After that no desk can pay on this day.",
  close_barred: "This user may not close the day: ask a supervisor.",
  another_day: "Another day",
  another_day_help: "If another desk has closed this day, continue with another one.",
  choose_another_day: "Choose another day",
  no_day: "No business day is open",
  no_day_help: "One desk opens the day, and the others join it.",
  no_day_to_pay: "You can look at bonds, but not pay them.",
  to_day: "Open or join a day",
  open_day_legend: "Open a day",
  open_day: "Open the day",
  open_barred: "This user may not open a day: ask a supervisor.",
  pay_barred: "This user may not pay bonds: ask a teller.",
  join_day_legend: "Join the day that another desk opened",
  open_day_label: "Open day",
  join_day: "Join the day",
  pay_bonds: "Pay bonds",
  owner: "Owner (customer number)",
  month: "Month",
  month_typed: "Month (YYYY-MM)",
  show_sheet: "Show the unpaid bonds",
  in_hand: "Bonds in hand",
  choose: "Choose",
  in_hand_help: "Type or scan serial numbers, each with Enter. Enter in the empty field asks to pay.",
  filter: "Show only",
  filter_help: "Part of a serial number, a denomination, or an issue month. Enter leads to the first bond.",
  another_bond: "Another bond",
  another_bond_help: "For a bond of another owner whose coowner is paid here.",
  serial: "Serial number",
  its_owner: "Its owner (customer number)",
  add_bond: "Add the bond",
  payment: "Payment",
  payee: "Pay to customer",
  payee_help: "The number of the owner, or of the coowner of each bond.",
  latest_tickets: "Latest tickets",
  other_ticket: "Another ticket",
  ticket_number: "Ticket number",
  show_ticket: "Show the ticket",
  latest_batches: "Latest batches",
  other_batch: "Another day",
  closed_day: "Closed day",
  show_batch: "Show the batch",
  back: "Back",
  interest: "Interest",
  interest_help: "For the report of interest to a payee and to the IRS. The counter tells the value of a paid bond, and not its interest, so this page knows the interest of what this browser has paid.",
  interest_day_legend: "Interest of a day",
  interest_payee_legend: "Interest of a customer",
  show_interest: "Show the interest",
  payee_number: "Paid to customer",
  from_day: "From",
  to_day_of_span: "To",
  records: "Records of this browser",
  records_help: "This browser keeps a record of every payment that it made, for receipts and interest. Records stay until you delete them.",
  records_to: "Delete the records up to",
  delete_records: "Delete the records",
  walkin: "Walk-in",
  walkin_help: "For bonds that aren't registered yet: type them from the paper. The page registers them, and then pays them.",
  walkin_barred: "This user may not both register and pay bonds: ask a user who may.",
  walkin_bond: "A bond, as its paper has it",
  denomination: "Denomination",
  issue_month: "Issue month (MM/YYYY)",
  walkin_customer: "Customers",
  walkin_owner: "Owner (customer number)",
  walkin_coowner: "Coowner, if the paper says OR",
  walkin_payee: "Pay to, if not the owner",
  walkin_customer_help: "OR is a coowner; POD is a beneficiary: leave it empty. A registered bond can't be changed: compare the names on the paper with the customer numbers.",
};

// ---- fields

export const ENTER = {
  desk: "Enter a desk number (0 to 999)",
  day: `Enter a day from ${dayInWords("2005-05-01")} on`,
  month: "Enter a month from 2005-05 on, as YYYY-MM",
  customer: "Enter a customer number (1 to 9 digits)",
  serial: "Enter a serial number (such as C12EE)",
  ticket: "Enter a ticket number",
  denomination: "Enter a denomination: 50, 75, 100, 200, 500, 1,000, 5,000 or 10,000",
  issue_month: "Enter an issue month from 05/2005 on (such as 05/2010)",
  coowner: "Enter another customer number than the owner's (1 to 9 digits), or nothing",
  walk_in_payee: "Enter the owner's number or the coowner's, or nothing",
  last_day: "Enter a day that isn't before the first one",
  day_before: (day) => `Enter a day before ${dayInWords(day)}: the records of that day are in use`,
};

// Why this counter can't pay a bond that was typed, or what to type instead, by the reasons of typed.js.
const TO_TREASURY = "The back office sends it to the Treasury, with FS Form 1522";

export const TYPED = {
  series: `If the paper isn't of Series EE, this counter can't pay it. ${TO_TREASURY}`,
  early: `This counter can't pay a bond that was issued before May 2005. ${TO_TREASURY}`,
  unclear: "Enter the month as MM/YYYY, without a day (such as 05/2010)",
};

// ---- the head of the page

export const HEAD = {
  state: (desk, day) => `Desk ${desk}, ${day === null ? "no open day" : dayInWords(day)}`,
  user: (name) => `Teller ${name}`,
  title: (view) => `${view} – ${TEXTS.title}`,
  close: "Close",
  reload: "Reload the page",
  no_start: "This page can't start.",
  no_start_help: "It needs HTTPS, and a browser that may store data for this page.",
  failed: "Something in this page went wrong.",
  failed_help: "Reload the page. An open request is kept, and is sent again then.",
};

// ---- the day

const distance = (day, closed, usual_days) => {
  if (closed === null) return `no closed day was found in the ${usual_days} days before it.`;
  const last = `the last closed day, ${weekdayInWords(closed)}`;
  const days = daysFrom(closed, day);
  if (days <= 0) return `not later than ${last}. The counter refuses to open it.`;
  return `${counted(days, "day", "days")} after ${last}.`;
};

const sums = ({ tickets: count, bonds: lines, total }) => `${tickets(count)}, ${bonds(lines)}, ${moneyInWords(total)}`;

export const DAY = {
  name: (day) => `Business day: ${weekdayInWords(day)}`,
  last: (ticket) => `Show the last ticket of this page, ticket ${ticket}`,
  sums,
  all_sum: (tally, moment) => `${sums(tally)}, counted on ${timeInWords(moment)}`,
  counting: (done) => `Counting the tickets: ${numberInWords(done)} so far.`,
  desk_tickets: "Tickets of this desk",
  open_title: (day) => `Open ${dayInWords(day)}?`,
  open_line: (day, closed, usual_days) => `${weekdayInWords(day)}: ${distance(day, closed, usual_days)}`,
  today_line: (day, today) => {
    const days = daysFrom(today, day);
    return `${counted(Math.abs(days), "day", "days")} ${days < 0 ? "before" : "after"} today, ${weekdayInWords(today)}.`;
  },
  open: "Open the day",
  continue: "Continue",
  year_title: (year) => `Is the year ${year} right?`,
  clock_line: (today) => `The server's clock says ${dayInWords(today)}, which can't be right: tell your administrator.`,
  year_line: (day) => `Bonds are then paid at their values in ${monthInWords(monthOf(day))}, and no earlier day can ever be opened again.`,
  year_back: "If the year or the day is mistyped, choose Back.",
  open_in: (year) => `Open the day in ${year}`,
  is_open: (day) => `${dayInWords(day)} is open.`,
  is_closed: (day) => `${dayInWords(day)} is closed.`,
  is_closed_batch: (day) => `${dayInWords(day)} is closed. This is its batch.`,
  join: (day) => `Join ${dayInWords(day)}`,
  joined: (day) => `This desk joined ${dayInWords(day)}.`,
  joined_help: "If it isn't the open day, the first payment is refused, and nothing is changed.",
  close_title: (day, total) => `Close ${weekdayInWords(day)} with ${moneyInWords(total)}?`,
  close_sums: (tally) => `Paid so far, at all desks: ${sums(tally)}.`,
  close_line: "No desk can pay on it any more, and it can't be opened again.",
  close: (total) => `Close the day with ${moneyInWords(total)}`,
  more_paid: (shown, total) => `You confirmed ${moneyInWords(shown)}. The batch has ${moneyInWords(total)}: another desk paid meanwhile.`,
};

// ---- paying

const NOT_YET = { NI: "it isn't issued yet", NE: "it is less than 12 months old" };

export const PAY = {
  none_chosen: "No bond is chosen.",
  chosen: (count, month) => `${bonds(count)}, valued in ${monthInWords(month)}`,
  too_many: (most) => `A ticket holds up to ${most}: pay the rest on another one.`,
  pay: "Pay",
  pay_sum: (sum) => `Pay ${moneyInWords(sum)}`,
  pay_to: (sum, payee) => `Pay ${moneyInWords(sum)} to customer ${payee}`,
  pay_title: (sum, payee) => `Pay ${moneyInWords(sum)} to customer ${payee}?`,
  pay_lines: (count, day, sum) => `${bonds(count)} on ${weekdayInWords(day)}, ${moneyInWords(sum)} in all:`,
  window: "Identify the person, and see the request for payment signed on every bond. Stamp every bond PAID.",
  scans: (count, all) => `${numberInWords(count)} of ${all === 1 ? "1 scan" : `${numberInWords(all)} scans`}${count === all ? "." : ". Not in this payment:"}`,
  left: "Scanned, and not in this payment",
  unticked: (serial) => `${serial} was scanned, and isn't chosen.`,
  bond_line: (serial, denom, issued, value) => [serial, SHEET.denom(denom), SHEET.issued(issued), moneyInWords(value)],
  box: (serial) => `Pay bond ${serial}`,
  no_day_sheet: "No business day is open, so nothing can be chosen here.",
  show_month: (month) => `Show the bonds in ${monthInWords(month)}`,
  other_month: (month) => `Nothing can be chosen here: bonds are paid at their values in ${monthInWords(month)}, the month of the open day.`,
  no_day: "No business day is open.",
  no_day_help: "Open or join the day first, under Day.",
  choose_help: "Choose the bonds to pay on the sheet, or add bonds of other owners.",
  too_many_chosen: (most, count) => `A ticket holds up to ${most} bonds, and ${count} are chosen.`,
  too_many_help: "Choose fewer, and pay the rest on another ticket.",
  already: (serial) => `Bond ${serial} is already chosen.`,
  day_changed: "The business day changed meanwhile.",
  add_again: "Add the bond again.",
  not_owned: (serial, owner) => `Bond ${serial} isn't among the unpaid bonds that customer ${owner} owns.`,
  not_owned_help: "Compare the serial number and the owner with the paper and the register. The bond may be paid already.",
  not_payable: (serial, month, note) => `Bond ${serial} can't be paid in ${monthInWords(month)}: ${NOT_YET[note]}.`,
  added: "Other bonds to pay",
  added_line: (serial, owner, value) => `${serial}, owner ${owner}: ${moneyInWords(value)}`,
  remove: (serial) => `Remove ${serial}`,
  paid: (ticket) => `Ticket ${ticket} is paid.`,
  pay_out: (total, payee) => `Pay out ${moneyInWords(total)} to customer ${payee}.`,
  desk_so_far: (desk_sums) => `This desk today: ${sums(desk_sums)}.`,
  other_sum: (ticket) => `Ticket ${ticket} is paid, but its total isn't the sum that was confirmed.`,
  other_sum_help: (total, shown) => `The total, ${moneyInWords(total)}, is what was paid: pay out that. You confirmed ${moneyInWords(shown)}. Tell your administrator.`,
  show_ticket: (number) => `Show ticket ${number}`,
};

// ---- the bonds in hand

export const HAND = {
  taken: (serial, denom, issued, value) => `${serial} is chosen: ${SHEET.denom(denom)}, ${SHEET.issued(issued)}, ${moneyInWords(value)}.`,
  missed: (count) => `Not chosen: ${numberInWords(count)}`,
  no_serial: (text, why) => (TYPED[why] === undefined ? `“${text}” isn't a serial number (such as C12EE).` : `“${text}”: ${TYPED[why]}.`),
  paid: (serial, ticket) => `Bond ${serial} was paid already, on ticket ${ticket}.`,
  no_room: (serial, most) => `Bond ${serial} has no room: a ticket holds up to ${most}. Pay it on another one.`,
  other_owner: (serial) => `${serial} has another owner`,
  clear: "Clear this list",
  not_here: `If its paper was issued before May 2005, this counter can't pay it. ${TO_TREASURY}.`,
  waiting: (names) => `Scanned: ${namesInWords(names)}. ${names.length === 1 ? "It waits" : "They wait"} for a customer's sheet.`,
  meanwhile: (names) => `Scanned, and not in this question: ${namesInWords(names)}.`,
};

// ---- sheets

export const SHEET = {
  columns: { box: "Pay", serial: "Bond", value: "Value", note: "Note", denom: "Denom.", issued: "Issued", price: "Price", interest: "Interest", rate: "Rate", next: "Next accrual", final: "Final maturity" },
  notes: {
    NI: "not issued yet: can't be paid yet",
    NE: "under 12 months: can't be paid yet",
    P5: "under 5 years: less three months' interest",
    MA: "30 years or more: earns no more interest",
  },
  legend: "Notes",
  region: "Unpaid bonds",
  facts: (customer, month, payable) => `Customer ${customer} · ${monthInWords(month)} · ${payable}`,
  change: "Change",
  all_columns: "All columns",
  fewer_columns: "Fewer columns",
  caption: (customer, month) => `Unpaid bonds of customer ${customer} in ${monthInWords(month)}`,
  none: (customer) => `Customer ${customer} owns no unpaid bonds.`,
  total: "Total",
  total_shown: "Total shown",
  filtered: (count, all, hidden) => `${numberInWords(count)} of ${bonds(all)} shown.${hidden === 0 ? "" : ` Chosen, but not shown: ${numberInWords(hidden)}.`}`,
  payable: (count, all, sum) => (count === 0 ? `None of ${bonds(all)} can be paid in this month` : `${numberInWords(count)} of ${numberInWords(all)} can be paid: ${moneyInWords(sum)}`),
  payable_total: "Can be paid",
  select: (count) => (count === 1 ? "Select it" : `Select all ${numberInWords(count)}`),
  select_shown: (count) => `Select the ${numberInWords(count)} shown`,
  select_first: (most) => `Select the first ${most}: a ticket's most`,
  select_none: "Select none",
  no_value: "–",
  denom: (dollars) => `$${numberInWords(Number(dollars))}`,
  issued: (month) => `issued ${month}`,
  paid: (ticket) => `Paid, ticket ${ticket}`,
};

// ---- tickets and batches

export const LOOKUPS = {
  no_ticket: (number) => `There is no ticket ${number}.`,
  check_number: "Check the number.",
  no_batch: (day) => `${dayInWords(day)} has no batch: it isn't closed.`,
  reading: "Asking the counter for the latest.",
  reading_tickets: (done, all) => `Reading the tickets: ${numberInWords(done)} of ${numberInWords(all)}.`,
  try_again: "Try again",
  no_tickets: "No ticket has been paid yet.",
  no_batches: "No closed day with tickets was found.",
  some_missing: "A closed day without tickets may be missing here: enter the day below.",
  earlier: "Show earlier ones",
  ticket_columns: ["Ticket", "Day", "Paid to", "Bonds", "Sum"],
  batch_columns: ["Day", "Tickets", "Bonds", "Sum"],
  desk_columns: ["Ticket", "Time", "Bonds", "Sum"],
  tickets_caption: "The latest tickets of all desks",
  batches_caption: "The latest closed days",
  desk_caption: "Tickets of this desk on this day",
  show_ticket: (number) => `Ticket ${number}`,
  payee: (number) => `customer ${number}`,
  time: (moment) => (moment === null ? SHEET.no_value : timeInWords(moment)),
};

// ---- paper

export const PAPER = {
  series: "United States Savings Bonds, Series EE",
  ticket: (number) => `Ticket ${number}`,
  batch: (day) => `Batch of ${dayInWords(day)}`,
  copy: "COPY",
  not_stored: "The browser hasn't stored this reply yet. Print the ticket once it has.",
  copy_help: "This ticket was printed before, or another desk paid it: it prints as a copy.",
  bank: "Bank",
  branch: "Branch",
  desk: "Desk",
  teller: "Teller",
  time: "Server's time",
  printed: "Printed",
  request: "Request",
  request_number: (desk, number) => `desk ${desk}, number ${number}`,
  day: "Business day",
  payee: "Paid to",
  customer: (number) => `customer ${number}`,
  bonds: "Bonds",
  sum: "Sum",
  amount: "Amount in words",
  columns: ["No.", "Bond", "Paid"],
  receipt_columns: ["No.", "Bond", "Denomination", "Issued", "Price", "Interest", "Value"],
  bond: (denom, issued) => [SHEET.denom(denom), `${issued.slice(5)}/${issued.slice(0, 4)}`],
  lacks: "Without denominations, issue months, prices and interest: the counter doesn't tell them of bonds that are paid, and this browser has no record of this payment.",
  lines: (number) => `Bonds paid on ticket ${number}`,
  total: "Total",
  received: "Received by: the payee's name",
  signature: "Signature",
  settled: "Settled by: name",
  print: "Print",
  next: "Next customer",
  tickets_paid: "Tickets paid",
  bonds_paid: "Bonds paid",
  sum_paid: "Sum paid",
  batch_columns: ["Ticket", "Paid to", "Bonds", "Sum"],
  batch_lines: (day) => `Tickets of ${dayInWords(day)}`,
  sheet: (title, day, payee) => `${title}, ${dayInWords(day)}, customer ${payee}`,
  page: (page, pages) => `Page ${page} of ${pages}`,
  other_list: "The tickets that were read don't add up to the batch. Tell your administrator.",
};

// ---- a request under way

// By path: the request, and what an attempt without a reply may have done.
export const REQUESTS = {
  "/redeem": [({ serials, payee }) => `Paying ${bonds(serials.length)} to customer ${payee}`, "Nothing may be paid out yet. The payment may have been made already."],
  "/bonds": [({ bonds: rows }) => `Registering ${bonds(rows.length)} of customer ${rows[0].owner}`, "Nothing may be paid out yet. The bonds may be registered already."],
  "/day/open": [({ day }) => `Opening ${dayInWords(day)}`, "The day may be open already."],
  "/day/close": [({ day }) => `Closing ${dayInWords(day)}`, "The day may be closed already."],
};

const requestInWords = ({ path, fields }) => REQUESTS[path][0](fields);
const mayBeDone = ({ path }) => REQUESTS[path][1];

const advised = ({ says, advises }) => `${says} ${advises}`;

// What came in place of a reply.
function missedInWords(request, answer) {
  const { says, advises } = answer.kind === "forbidden" ? forbiddenInWords(answer.why, request.path) : inWords(answer);
  const missed = answer.kind === "forbidden" ? advised({ says, advises }) : says;
  return ["fault", "forbidden"].includes(answer.kind) && request.sent > 1 ? `${missed} ${STEPS.not_earlier}` : missed;
}

const unstored = ({ request, answer, milliseconds }) => {
  const is_open = `${STEPS.is_open} ${request.sent === 0 ? STEPS.not_sent : mayBeDone(request)}`;
  return [`${requestInWords(request)}: ${answer.is_replied ? STEPS.replied : is_open}`, `${advised(inWords(answer))} ${STEPS.tries_again(FORMATS.seconds(milliseconds))}`];
};

// By step: what comes first, and the rest.
export const STEPS = {
  not_earlier: "This says nothing about the earlier attempts.",
  is_open: "the request is open.",
  not_sent: "It wasn't sent.",
  did_nothing: "This attempt did nothing.",
  replied: "the reply has come.",
  tries_again: (time) => `The page tries again in ${time}.`,
  sends_again: (time) => `The same request is sent again in ${time}.`,
  sending: ({ request }) => {
    const times = request.sent === 1 ? "sent" : `sent again (attempt ${request.sent})`;
    return ["", `${requestInWords(request)}: ${times}, waiting for the reply.`];
  },
  renumbered: ({ request }) => {
    const next = `The page continues with number ${request.number}. Does another page use this desk?`;
    return ["", `${requestInWords(request)}: another request of this desk used that number. ${next}`];
  },
  no_reply: (request, done) => `${request}: no reply yet. ${done}`,
  pausing: (step) => {
    const { request, answer, milliseconds } = step;
    if (answer.kind === "unstored") return unstored(step);
    const done = answer.kind === "forbidden" && request.sent === 1 ? STEPS.did_nothing : mayBeDone(request);
    return [STEPS.no_reply(requestInWords(request), done), `${missedInWords(request, answer)} ${STEPS.sends_again(FORMATS.seconds(milliseconds))}`];
  },
};

export const INTERRUPTED = {
  says: (done) => `The connection was interrupted. ${done}`,
  ticket: "This was paid once.",
  opened: "The day was opened once.",
  batch: "The day was closed once.",
  nothing: (sent) => `None of the ${sent} attempts changed anything.`,
};

// The reply is perhaps that of an earlier attempt.
export function interruptedInWords(kind, sent) {
  return INTERRUPTED.says(["ticket", "opened", "batch"].includes(kind) ? INTERRUPTED[kind] : INTERRUPTED.nothing(sent));
}

export const NOTICES = {
  entry: (entry) => `Log entry ${entry}.`,
  code: (name, code) => `${name}, code ${code}.`,
  nothing_changed: "Nothing was changed.",
  nothing_done: (says) => `${says} Nothing was done.`,
  try_again: "Nothing was changed. Try again.",
  not_sent: "Nothing was sent, and nothing was changed.",
};

// ---- the counter's codes

const bondOf = (answer) => (answer.serial === undefined ? "A bond" : `Bond ${answer.serial}`);
const thatBond = (answer) => (answer.serial === undefined ? "a bond" : `bond ${answer.serial}`);
const monthOfAnswer = (answer) => (typeof answer.month === "string" ? monthInWords(answer.month) : "that month");

// By code: the name, what is so, and what to do about it.
export const REFUSALS = {
  10: ["NumberReused", () => "Another request of this desk used this request's number.", () => "The page continues under a higher number. If this happens often, two pages share one desk: give each its own."],
  11: ["Empty", () => "The request names no bond.", () => "Choose at least one bond and try again."],
  12: ["TooMany", () => "The request is too large: a ticket holds up to 100 bonds, a registration up to 500 rows.", () => "Split it into smaller requests."],
  13: ["Repeated", (answer) => `${bondOf(answer)} is named twice in the request.`, () => "Name each bond once and try again."],
  14: ["SameCoowner", (answer) => `${bondOf(answer)} has the same customer as owner and coowner.`, () => "Register it with another coowner, or with none."],
  20: ["NotAnnouncementMonth", (answer) => `A rate can't start in ${monthOfAnswer(answer)}. Rates start in May or November.`, () => "Enter it from the May or November in which it was announced."],
  21: ["RateConflict", (answer) => `Other rates are already entered from ${monthOfAnswer(answer)}.`, () => "Entered rates can't be changed. Compare them with the Treasury's announcement, and report any difference to the back office."],
  22: ["RateUnsettled", (answer) => `Under this rate, the value at ${answer.month} months of age can't be settled to the cent.`, () => "Compare the rate with the Treasury's announcement. If it is right, tell your administrator."],
  30: ["NoRate", (answer) => `No rate is entered for the month in which ${thatBond(answer)} was issued.`, () => "Have that rate entered first."],
  31: ["SerialConflict", (answer) => `${bondOf(answer)} is registered with a different denomination, issue month, owner or coowner.`, () => "Compare the paper with the register. A registered bond can't be changed."],
  40: ["DayOpen", () => "A business day is open already.", () => "If it is this day, join it. If it is an earlier day, close that day first."],
  41: ["DayNotLater", () => "This day, or a later one, is closed already.", () => "Open a later day. A day is opened only once."],
  42: ["NoOpenDay", () => "No business day is open.", () => "Open the day first, and try again."],
  43: ["DayIsOther", () => "A different business day is open.", () => "Join the day that is open, and try again."],
  44: ["DayFull", () => "The day has reached its limit of 1,000 tickets.", () => "Pay at the second counter, if the bond is in its register. Otherwise a supervisor closes the day and opens the next date, but never one of the next month: it pays that month's values."],
  50: ["UnknownSerial", (answer) => `${bondOf(answer)} isn't registered.`, () => "Compare the serial number with the paper. If it is right, have the bond registered first."],
  51: ["NotPayee", (answer) => `The payee is neither the owner nor the coowner of ${thatBond(answer)}.`, () => "Compare the customer number with the register. Nobody else can be paid."],
  52: ["AlreadyPaid", (answer) => `${bondOf(answer)} was paid already, on ticket ${answer.ticket}.`, () => "Don't pay it again. Look at that ticket to see who was paid, and when."],
  53: ["NotIssued", (answer) => `${bondOf(answer)} isn't issued yet in the month of the open day.`, () => "Compare the issue month with the paper. The bond can't be paid now."],
  54: ["NotEligible", (answer) => `${bondOf(answer)} is less than 12 months old.`, () => "It can be paid from 12 months after its issue month."],
};

const damaged = () => "The page sends the same request again. If this continues, tell your administrator.";
const misfit = () => "Nothing was done. Tell your administrator: it doesn't match the program.";

export const FAULTS = {
  60: ["BadHead", () => "The message reached the counter damaged: its head can't be read.", damaged],
  61: ["HeadTooLong", () => "The message reached the counter damaged: its head is too long.", damaged],
  62: ["BodyTooLong", () => "The message is too long for the counter.", misfit],
  63: ["BadLength", () => "The message reached the counter damaged: its length can't be read.", damaged],
  64: ["BadJson", () => "The counter can't read the request: it isn't JSON.", misfit],
  65: ["BadField", (answer) => `The counter can't read the field “${answer.field}”, or its value is out of range.`, () => "Nothing was done. Check what you typed. If it is right, tell your administrator."],
  66: ["NoRoute", () => "The counter doesn't know this request.", misfit],
  67: ["BadMethod", () => "The counter doesn't take this request by this method.", misfit],
  68: ["Truncated", () => "The message reached the counter cut short.", damaged],
  69: ["NotFound", () => "There is no such ticket or batch.", () => "Check the number or the day. A day has a batch once it is closed."],
};

export const UNSERVED = {
  1: ["NoMemory", () => "The counter had no memory for this request, so this attempt did nothing.", () => "The page sends the same request again. If this continues, tell your administrator."],
  2: ["StoreFailed", () => "The counter's store failed, so the request may or may not have been done.", () => "The page sends the same request again, which takes effect once at most. Tell your administrator: it must be restarted."],
};

const CODES = { refused: REFUSALS, fault: FAULTS, unserved: UNSERVED };

// What a user's group may not do, and whose group may. `other` is a look-up.
export const RIGHTS = {
  "/redeem": ["pay bonds", "a teller"],
  "/bonds": ["register bonds", "a registrar"],
  "/day/open": ["open a day", "a supervisor"],
  "/day/close": ["close a day", "a supervisor"],
  other: ["look this up", "a user who may"],
};

const unlike = () => "Reload the page. If this stays, ask your administrator.";

// By the reason that the proxy gives: why it didn't pass a request on, and what to do about it.
export const FORBIDDEN = {
  certificate: [() => "This browser sent no certificate of the staff, or it was revoked or has run out.", () => "Put in your card, or close the browser and open it again. If this stays, ask your administrator for a new certificate."],
  group: [([act]) => `This user may not ${act}.`, ([, who]) => `Ask ${who}.`],
  origin: [() => "The proxy took this for a request of another site's page.", unlike],
  client: [() => "The proxy didn't find this page's name in the request.", unlike],
  type: [() => "The proxy didn't find the request's type.", unlike],
  request: [() => "The proxy couldn't read the request.", unlike],
  chunks: [() => "The request reached the proxy in pieces without a length.", unlike],
  size: [() => "The request is too long for the proxy.", () => "Split it into smaller requests."],
  host: [() => "This page was opened under a name that isn't the counter's.", () => "Open it under its usual address."],
};

// By why no answer of the counter came.
export const WHY = {
  redirected: () => "the request was redirected",
  busy: () => "too many requests",
  unavailable: () => "it is starting, or has too much to do",
  status: (answer) => `something else did (status ${answer.status})`,
  time: (answer) => `no response within ${answer.seconds} seconds`,
  lost: () => "the connection was lost",
};

export const UNSTORED = {
  quota: ["This browser has no room left for the journal of this page.", "Make room on this machine's disk."],
  other: ["This browser couldn't write the journal of this page.", "If this continues, reload the page."],
  unkept: ["This browser may forget an open payment: it doesn't promise to keep the data of this page, as in a private window.", "Ask your administrator to allow it persistent storage."],
};

// Why an open payment might not be kept.
export function unkeptInWords(why) {
  return UNSTORED[why].join(" ");
}

// An answer that is none of the counter's, and one whose code this page doesn't know.
export const ANSWERS = {
  none: (why) => `The counter didn't answer: ${why}.`,
  none_advises: "The page sends the same request again.",
  unknown: ({ name, code }) => `The counter answered ${name} (code ${code}), which this page doesn't know.`,
  unknown_advises: "Don't pay anything out for this request. Tell your administrator.",
};

// The sentence of an answer that is no reply, and what to do. If the name isn't that of the code, the page knows neither.
export function inWords(answer) {
  if (answer.kind === "none") return { says: ANSWERS.none(WHY[answer.why](answer)), advises: ANSWERS.none_advises };
  if (answer.kind === "unstored") return { says: UNSTORED[answer.fault][0], advises: UNSTORED[answer.fault][1] };
  const known = CODES[answer.kind]?.[answer.code];
  if (known === undefined || known[0] !== answer.name) return { says: ANSWERS.unknown(answer), advises: ANSWERS.unknown_advises };
  return { says: known[1](answer), advises: known[2](answer) };
}

// A request that the proxy didn't pass on, for the reason `why`. `path` is null for a look-up.
export function forbiddenInWords(why, path) {
  const rights = RIGHTS[path ?? "other"];
  const [says, advises] = FORBIDDEN[why].map((words) => words(rights));
  return { says, advises };
}

// ---- interest

const numbersInWords = (runs) => runs.map(({ first, last }) => (first === last ? String(first) : `${first} to ${last}`)).join(", ");

export const INTEREST = {
  csv_columns: ["Day", "Ticket", "Payee", "Serial number", "Denomination", "Issue month", "Price", "Interest", "Value"],
  columns: ["Ticket", "Day", "Paid to", "Bonds", "Value", "Interest"],
  caption: "Tickets and their interest",
  day_title: (day) => `Interest paid on ${dayInWords(day)}`,
  payee_title: (payee, from, to) => `Interest paid to customer ${payee} from ${dayInWords(from)} to ${dayInWords(to)}`,
  known: (found) => (found.tickets === 0 ? "No interest is known here." : `${moneyInWords(found.interest)} of interest on ${tickets(found.tickets)} with ${bonds(found.bonds)}: price ${moneyInWords(found.price)}, value ${moneyInWords(found.value)}.`),
  none: "No ticket was paid then.",
  unknown: (count, runs, value) =>
    `Not known here: the interest of ${tickets(count)} over ${moneyInWords(value)} (${count === 1 ? "number" : "numbers"} ${numbersInWords(runs)}): another browser paid, or this one before it kept records. In the file these bonds have empty columns for denomination, issue month, price and interest.`,
  unread: (runs) => `The span has too many tickets to read all of them. This browser has no record of these, so the file lacks whatever they paid to this customer: ${numbersInWords(runs)}.`,
  whole: "Nothing is missing: every ticket of this span was read.",
  save: "Save as CSV",
};

// ---- records of payments

const records = (count) => counted(count, "record", "records");

export const RECORDS = {
  kept: (count) => (count === 0 ? "There is no record." : `${records(count)} ${count === 1 ? "is" : "are"} kept.`),
  none: (day) => `No record is of ${dayInWords(day)} or an earlier day.`,
  title: (count) => `Delete ${records(count)}?`,
  span: (first, last) => (first === last ? `Payments of this browser on ${dayInWords(first)}.` : `Payments of this browser from ${dayInWords(first)} to ${dayInWords(last)}.`),
  lost: "After that the page no longer knows denominations, issue months, prices and interest of these payments. This can't be undone.",
  save: "If their interest isn't reported yet, choose Back and save it as CSV first.",
  act: (count) => `Delete ${records(count)}`,
  deleted: (count) => `${records(count)} ${count === 1 ? "is" : "are"} deleted.`,
};

// ---- walk-ins

export const WALK_IN = {
  none: "No bond is typed.",
  typed: "Bonds to register and pay",
  bond_line: ({ serial, denom, issued, value }) => [serial, SHEET.denom(denom), SHEET.issued(issued), moneyInWords(value)],
  already: (serial) => `Bond ${serial} is already in the list.`,
  act: "Register and pay",
  act_on: (sum) => `Register and pay ${moneyInWords(sum)}`,
  act_to: (sum, payee) => `Register and pay ${moneyInWords(sum)} to customer ${payee}`,
  title: (count, sum, payee) => `Register ${bonds(count)}, and pay ${moneyInWords(sum)} to customer ${payee}?`,
  owners: (owner, coowner) => `Owner: customer ${owner}. ${coowner === 0 ? "No coowner" : `Coowner: customer ${coowner}`}. A registered bond can't be changed.`,
  nothing_paid: "No bond was registered, and nothing was paid.",
  registered: (registered, is_paid) => {
    const again = registered.sent > 1 ? "The connection was interrupted while they were registered: that was done once. " : "";
    const known = registered.same === 0 ? "" : `, and ${registered.same === 1 ? "1 was" : `${registered.same} were`} registered before`;
    return `${again}${bonds(registered.new)} ${registered.new === 1 ? "was" : "were"} registered${known}.${is_paid ? "" : " None of them was paid."}`;
  },
};

// ---- what may be mistyped


export const DOUBTS = {
  title: "Do these bonds agree with the paper?",
  letter: (serials, letter, denom_of_letter, denom) => {
    const says = denom_of_letter === null ? `no denomination has the letter ${letter}` : `the letter ${letter} means ${SHEET.denom(denom_of_letter)}`;
    return `${namesInWords(serials)}: ${says}, and the denomination here is ${SHEET.denom(denom)}.`;
  },
  month: (serials, issued) => `${namesInWords(serials)}: issued ${issued}, and paper was sold only until 12/2011.`,
  back: "If anything differs from the paper, choose Back.",
  agree: "They agree: continue",
  day_title: (day) => `Is ${dayInWords(day)} the right day?`,
  other_month: (day, today) => `The open day is in ${monthInWords(monthOf(day))}; today is ${dayInWords(today)}. Bonds are then paid at their values in ${monthInWords(monthOf(day))}.`,
  day_back: "If this day should be closed, choose Back: a supervisor closes it and opens today's.",
  pay_in: (day) => `Pay at the values of ${monthInWords(monthOf(day))}`,
  sum_title: (sum) => `Is ${moneyInWords(sum)} right?`,
  sum: (most) => `It is more than ${moneyInWords(most)}, above which the bank asks once more. Compare every bond with the paper.`,
  sum_act: "It is right: continue",
};

// ---- the bank's own words

const OURS = { FORMATS, TEXTS, ENTER, HEAD, DAY, PAY, HAND, SHEET, LOOKUPS, PAPER, REQUESTS, STEPS, INTERRUPTED, NOTICES, REFUSALS, FAULTS, UNSERVED, RIGHTS, FORBIDDEN, WHY, UNSTORED, ANSWERS, INTEREST, RECORDS, WALK_IN, DOUBTS };

const isTable = (value) => typeof value === "object" && value !== null && !Array.isArray(value);

// Whether a word can stand in place of another: a text, a function, or a list of as many words.
function isAlike(word, other) {
  return Array.isArray(other) ? Array.isArray(word) && word.length === other.length && other.every((part, place) => isAlike(word[place], part)) : typeof word === typeof other;
}

// Lays words over those of a table, and returns the names of those that can't be: the table has no such key, or a word of another kind.
function laidOver(table, words, name) {
  if (!isTable(words)) return [name];
  return Object.entries(words).flatMap(([key, word]) => {
    const full_name = `${name}.${key}`;
    if (Object.hasOwn(table, key) && isTable(table[key])) return laidOver(table[key], word, full_name);
    if (!Object.hasOwn(table, key) || !isAlike(word, table[key])) return [full_name];
    table[key] = word;
    return [];
  });
}

const UNKNOWN = laidOver(OURS, /** @type {{ WORDS?: object }} */ (bank).WORDS ?? {}, "WORDS");
for (const name of UNKNOWN) console.warn(`bank.js: this page has no word ${name}, or another kind of it`);

// The words of bank.js that this page doesn't have, by their names: such as WORDS.PAY.payed.
export function unknownWords() {
  return UNKNOWN;
}
