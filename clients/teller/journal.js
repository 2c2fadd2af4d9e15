// The journal of a desk's request numbers: one record in the browser's storage. A change is on the disk before it is answered, so the record outlives a browser that is killed.
//
// The record:
//   desk    the number of this page's desk
//   next    the least number that no request has had
//   open    the request that has no reply yet: its number, path and fields, how often it was sent (`sent`), the sum that the teller confirmed (`shown`, cents as a text), its `teller`, and of a payment the
//           `bonds`, as receipts.js makes them. `then` is the payment that follows a registration, and `registered` what the registration before a payment was answered. A journal of an earlier
//           version lacks what follows `shown`
//   day     the day that this page works on
//   closed  the latest day that this page knows to be closed; a journal of an earlier version lacks it
//   last    the number of the last ticket that this page was told
//   paid    the tickets that this page was told on one day, { day, tickets }: of each its number, how many bonds, its sum (cents as a text), the number of its request, the server's time, by
//           whom, and whether it was printed. A journal of an earlier version lacks it, and `tally`
//   tally   how many tickets and bonds all desks had paid on one day, and their sum, up to the ticket `through`
// Of bonds and customers the record has only what the open request names. What is kept of payments is in receipts.js.

const NAME = "ladwenpik-teller";
const KEY = "journal";

export function answered(request) {
  return new Promise((resolve, reject) => {
    request.onsuccess = () => resolve(request.result);
    request.onerror = () => reject(request.error);
  });
}

export function completed(transaction) {
  return new Promise((resolve, reject) => {
    transaction.oncomplete = () => resolve();
    transaction.onerror = () => reject(transaction.error);
    transaction.onabort = () => reject(transaction.error);
  });
}

// The record couldn't be written: `fault` is "quota" if the browser has no room, and else "other". What was there before stays.
export class Unstored extends Error {
  constructor(error) {
    super("the journal can't be written", { cause: error });
    this.fault = error?.name === "QuotaExceededError" ? "quota" : "other";
  }
}

async function opened() {
  const request = indexedDB.open(NAME, 1);
  request.onupgradeneeded = () => request.result.createObjectStore(KEY);
  return answered(request);
}

export class Journal {
  #database;
  #record;
  #changes = Promise.resolve();

  constructor(database, record) {
    this.#database = database;
    this.#record = record;
  }

  static async open() {
    const database = await opened();
    const record = await answered(database.transaction(KEY).objectStore(KEY).get(KEY));
    return new Journal(database, record ?? null);
  }

  get record() {
    return this.#record;
  }

  // Starts the record, once in the life of a browser's storage. The first number is the time in milliseconds: above every number that this desk has reached by counting up from an earlier time.
  async choose(desk) {
    if (this.#record !== null) throw new Error("the desk was chosen before");
    await this.#write({ desk, next: Date.now(), open: null, day: null, closed: null, last: null, paid: null, tally: null });
  }

  // Calls `told` with why the journal might not be kept: "quota" or "other" if the browser can't write it now; "unkept" if the browser may drop it, as when it is short of room, or as a private window
  // is closed; null if it is kept. Calls again once the user has allowed it to be kept, if the browser asks.
  async testKept(told) {
    try {
      await this.change({});
    } catch (error) {
      told(error.fault);
      return;
    }
    const asked = [navigator.storage.persisted(), navigator.storage.persist()].map((one) => one.catch(() => false));
    for (const one of asked) told((await one) ? null : "unkept");
  }

  // Makes one change after another, each to the record that the one before left. Rejects with Unstored if it can't be written.
  change(changes) {
    const changed = this.#changes.then(() => this.#write({ ...this.#record, ...changes }));
    this.#changes = changed.catch(() => {});
    return changed;
  }

  async #write(record) {
    try {
      await this.#put(record).catch((error) => this.#putAgain(error, record));
    } catch (error) {
      throw new Unstored(error);
    }
    this.#record = record;
  }

  async #put(record) {
    const transaction = this.#database.transaction(KEY, "readwrite", { durability: "strict" });
    transaction.objectStore(KEY).put(record, KEY);
    await completed(transaction);
  }

  // A browser may close the database, as when its storage is cleared. This page alone has the journal, so what it remembers is what belongs there.
  async #putAgain(error, record) {
    if (error?.name !== "InvalidStateError") throw error;
    this.#database = await opened();
    await this.#put(record);
  }
}

// Resolves when this page alone has the journal of this browser. Calls `waiting` if another page has it now.
export async function takeJournal(waiting) {
  const taken = (options) =>
    new Promise((resolve, reject) => {
      const held = (lock) => (lock === null ? resolve(false) : new Promise(() => resolve(true)));
      navigator.locks.request(NAME, options, held).catch(reject);
    });
  if (await taken({ ifAvailable: true })) return;
  waiting();
  await taken({});
}
