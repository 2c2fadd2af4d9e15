// Runs the teller's page's own modules outside a browser. Reads a plan from standard input: examples of answers, and what the page is to ask for. Prints what it made of them.

import { readFileSync } from "node:fs";

const plan = JSON.parse(readFileSync(0, "utf8"));
const sent = [];
let next = null;
let count = 0;
const wait = globalThis.setTimeout;
// A call whose answer the page doesn't take is sent again: at once, and not without an end.
globalThis.setTimeout = (done) => wait(done, 0);
globalThis.location = { origin: "http://counter.test" };
globalThis.fetch = async (url, options) => {
  count += 1;
  if (count > 5) throw process.exit(console.error(`the page doesn't take the answer ${next.text}`) ?? 1);
  sent.push({ method: options.method, path: new URL(url).pathname, headers: options.headers, body: options.body === undefined ? null : JSON.parse(options.body) });
  return { type: "basic", status: next.status, text: async () => next.text, headers: { get: () => null } };
};

const { readAnswer, readBatch, readRow, readTicket, replyTo } = await import(`${plan.modules}/answers.js`);
const { readSheet } = await import(`${plan.modules}/sheet.js`);
const { askBatch, askSheet, askTicket, askValue } = await import(`${plan.modules}/queries.js`);
const { Sender } = await import(`${plan.modules}/sender.js`);

const LOOK_UPS = { ticket: readTicket, batch: readBatch, inventory: readSheet, value: readRow };

function read({ path, fields, status, text }) {
  const name = path.split("/")[1];
  return readAnswer(status, text, (whole) => (name in LOOK_UPS ? LOOK_UPS[name](whole) : replyTo(path, fields, whole)));
}

class Memory {
  record = { desk: 5, next: 1700000000000, open: null };
  async change(changes) {
    this.record = { ...this.record, ...changes };
  }
}

async function asked({ path, fields, parts, answer }) {
  next = answer;
  count = 0;
  if (path.startsWith("/ticket")) return askTicket(parts[0]);
  if (path.startsWith("/batch")) return askBatch(parts[0]);
  if (path.startsWith("/inventory")) return askSheet(parts[0], parts[1]);
  if (path.startsWith("/value")) return askValue(...parts);
  return new Sender(new Memory(), () => {}).submit(path, fields);
}

const kinds = [];
for (const one of plan.calls) kinds.push((await asked(one)).kind);
const answers = plan.answers.map((one) => {
  const { kind, code, name, why } = read(one) ?? { kind: "none" };
  return { kind: kind ?? "sheet", code, name: kind === "forbidden" ? why : name };
});
console.log(JSON.stringify({ sent, kinds, answers }));
