// Runs sender.js of the tellers' page, and the machine beside it, which are in its folder. A command is JSON; what it tells is JSON too: what the page does, and waits for its answer, or how a request
// ended. In Node each is a line. In a browser `exchanged` takes commands, and resolves to what the page tells next.

const is_node = typeof process !== "undefined";
const wasm = await file(new URL("ee_client.wasm", import.meta.url));
const told = [];
let resolve_told = () => {};
let life = 0;
let resolve_asked = () => {};
let sender = null;

async function file(url) {
  return is_node ? (await import("node:fs/promises")).readFile(url) : (await fetch(url)).arrayBuffer();
}

function tell(item) {
  told.push(JSON.stringify(item));
  if (is_node) process.stdout.write(`${told.shift()}\n`);
  resolve_told();
}

// Tells what the page does, and resolves to what then happens. A page that was killed hears nothing.
function ask(item) {
  const own = life;
  tell(item);
  return new Promise((resolve) => {
    resolve_asked = (answer) => own === life && resolve(answer);
  });
}

globalThis.location ??= { origin: "https://counter.test" };
globalThis.setTimeout = (wake, milliseconds) => {
  ask({ pause: milliseconds }).then(wake);
  return 0;
};
globalThis.clearTimeout = () => {};
globalThis.fetch = async (url, options) => {
  const response = await ask({ send: { path: new URL(url).pathname, body: JSON.parse(options.body) } });
  if (response === null) throw new TypeError("nothing came");
  return { type: "basic", status: response.status, headers: { get: () => null }, text: async () => response.text };
};

const { Sender } = await import(new URL("sender.js", import.meta.url).href);
const { Unstored } = await import(new URL("journal.js", import.meta.url).href);

// A journal as journal.js has it: a change is written whole, or what was there stays.
class Journal {
  constructor(record) {
    this.record = record;
  }

  async change(changes) {
    const record = { ...this.record, ...changes };
    if ((await ask({ write: record })) !== "kept") throw new Unstored(new Error("the disk is full"));
    this.record = record;
  }
}

function ended(promise) {
  const own = life;
  promise.then(
    (answer) => own === life && tell({ ended: { kind: answer?.kind ?? null, act: answer?.request?.act ?? null } }),
    (error) => own === life && tell({ failed: error instanceof Unstored ? "unstored" : error.message }),
  );
}

const machine = (await WebAssembly.instantiate(wasm, {})).instance.exports;

// 6 numbers of the journal, 16 of the turn, and then 5 for each event, behind all that the module has for itself.
function turn(most, journal, events) {
  const from = 8 * Math.ceil(Number(machine.__heap_base.value) / 8);
  const missing = from + 8 * (22 + 5 * events.length) - machine.memory.buffer.byteLength;
  if (missing > 0) machine.memory.grow(Math.ceil(missing / 65536));
  const view = new DataView(machine.memory.buffer);
  [...journal, ...Array(16).fill("0"), ...events.flat()].forEach((number, place) => view.setBigUint64(from + 8 * place, BigInt(number), true));
  machine.ee_client_turn(BigInt(most), BigInt(from), BigInt(from + 176), BigInt(events.length), BigInt(from + 48));
  return Array.from({ length: 16 }, (_, place) => String(view.getBigUint64(from + 48 + 8 * place, true)));
}

const COMMANDS = {
  start: ({ record }) => {
    life += 1;
    sender = new Sender(new Journal(record), () => {});
    tell({ started: true });
  },
  submit: ({ path, fields, more }) => ended(sender.submit(path, fields, more)),
  finish: () => ended(sender.finish()),
  forget: () => ended(sender.forget({}, async () => {})),
  answer: ({ answer }) => resolve_asked(answer),
  turn: ({ most, journal, events }) => tell({ turn: turn(most, journal, events) }),
};

function run(command) {
  COMMANDS[command.do](command);
}

globalThis.exchanged = async (commands) => {
  JSON.parse(commands).forEach(run);
  while (told.length === 0) await new Promise((resolve) => (resolve_told = resolve));
  return told.shift();
};

if (is_node) {
  const { createInterface } = await import("node:readline");
  for await (const line of createInterface({ input: process.stdin })) run(JSON.parse(line));
}
