// Look-ups, which change nothing. Each is asked again a few times if no answer comes; then the page says so. If the proxy has had too many requests, a look-up waits until it takes it. The signal `cancel`
// ends one, whose answer then is of the kind "cancelled".

import { readBatch, readRow, readTicket, readUser } from "./answers.js";
import { asked } from "./messages.js";
import { readSheet } from "./sheet.js";

const PAUSES = [500, 1000, 2000, 4000];
const BUSY_PAUSE = 2000;
const BUSY_TIMES = 90;
const NOT_FOUND = 69;

function isFinal(answer) {
  return answer.kind !== "none" && answer.kind !== "unserved";
}

// Ends early if the signal `cancel` does.
function pause(milliseconds, cancel) {
  return new Promise((resolve) => {
    setTimeout(resolve, milliseconds);
    cancel?.addEventListener("abort", resolve, { once: true });
  });
}

// Calls `busy` each time that the proxy has had too many requests.
async function askedWhenFree(path, read, cancel, busy) {
  for (let times = 0; ; times += 1) {
    const answer = await asked(path, read, cancel);
    if (answer.why !== "busy" || times === BUSY_TIMES) return answer;
    busy();
    await pause(BUSY_PAUSE, cancel);
  }
}

async function answered(path, read, cancel, busy = () => {}) {
  for (const milliseconds of PAUSES) {
    const answer = await askedWhenFree(path, read, cancel, busy);
    if (isFinal(answer)) return answer;
    await pause(milliseconds, cancel);
  }
  return askedWhenFree(path, read, cancel, busy);
}

export function askTicket(number, cancel, busy) {
  const read = (text) => {
    const ticket = readTicket(text);
    return ticket !== null && ticket.ticket === number ? ticket : null;
  };
  return answered(`/ticket/${number}`, read, cancel, busy);
}

export function askBatch(day, cancel) {
  const read = (text) => {
    const batch = readBatch(text);
    return batch !== null && batch.day === day ? batch : null;
  };
  return answered(`/batch/${day}`, read, cancel);
}

export function askSheet(customer, month, cancel) {
  const read = (text) => {
    const sheet = readSheet(text);
    return sheet === null ? null : { kind: "sheet", customer, month, ...sheet };
  };
  return answered(`/inventory/${customer}/${month}`, read, cancel);
}

// The row in a month of a bond of this denomination and issue month.
export function askValue(denom, issued, month, cancel) {
  const read = (text) => {
    const row = readRow(text);
    return row !== null && row.denom === denom && row.issued === issued ? row : null;
  };
  return answered(`/value/${denom}/${issued}/${month}`, read, cancel);
}

// The user's name and groups. Without the proxy there is no such path.
export function askUser() {
  return answered("/user", readUser);
}

export function isMissing(answer) {
  return answer.kind === "fault" && answer.code === NOT_FOUND;
}

// The batch of the first of these days that has one; null if none has; an answer that is neither, if one comes first.
export async function askFirstBatch(days, cancel) {
  for (const day of days) {
    const answer = await askBatch(day, cancel);
    if (!isMissing(answer)) return answer;
  }
  return null;
}
