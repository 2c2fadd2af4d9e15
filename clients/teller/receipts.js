// What this browser keeps of the payments of its desk, for receipts and for their interest: the counter tells neither denomination nor issue month of a bond that is paid. It is a database of its
// own, so that an earlier version of the page still finds its journal.
//
// A record, by the number of its request:
//   ticket, day, payee    the ticket's
//   desk, number          the request's
//   at                    the server's time of the reply in milliseconds, or null
//   teller                the user, or null
//   bonds                 of each bond { serial, denom, issued, price, value }: dollars, YYYY-MM, and cents as texts. All but `serial` and `value` are null if an earlier version of the page
//                         stored the request
// After a store was restored or replaced, another ticket may have a number that is kept here. So a record counts only if its ticket is, line by line, the counter's.

import { answered, completed, Unstored } from "./journal.js";
import { laterOf } from "./spelling.js";

const NAME = "ladwenpik-receipts";
const STORE = "payments";
const BY_TICKET = "ticket";

async function opened() {
  const request = indexedDB.open(NAME, 1);
  request.onupgradeneeded = () => request.result.createObjectStore(STORE, { keyPath: "number" }).createIndex(BY_TICKET, BY_TICKET);
  return answered(request);
}

// The record of a payment. `bonds` are those that the request was stored with, as `bondsOf` makes them, or nothing.
export function receiptOf(ticket, desk, teller) {
  const { number, bonds } = ticket.request;
  const known = (place) => bonds?.[place] ?? { denom: null, issued: null, price: null };
  const lines = ticket.lines.map(({ serial, cents }, place) => ({ ...known(place), serial, value: cents.toString() }));
  return { ticket: ticket.ticket, day: ticket.day, payee: ticket.payee, desk, number, at: ticket.at, teller, bonds: lines };
}

// What a request is stored with of rows of a sheet: what its ticket won't tell.
export function bondsOf(rows) {
  return rows.map(({ serial, denom, issued, price }) => ({ serial, denom: Number(denom), issued: `${issued.slice(3)}-${issued.slice(0, 2)}`, price: price.toString() }));
}

// Whether a record is that of a ticket.
export function isOf(record, ticket) {
  const is_same = (bond, place) => bond.serial === ticket.lines[place].serial && BigInt(bond.value) === ticket.lines[place].cents;
  return record.ticket === ticket.ticket && record.day === ticket.day && record.payee === ticket.payee && record.bonds.length === ticket.lines.length && record.bonds.every(is_same);
}

// The bonds of a record with their money as cents, and their sums; null without a record, or if it lacks a denomination.
export function detailsOf(record) {
  if (record === null || record.bonds.some((bond) => bond.price === null)) return null;
  const bonds = record.bonds.map((bond) => {
    const [price, value] = [BigInt(bond.price), BigInt(bond.value)];
    return { ...bond, price, value, interest: value - price };
  });
  const sum = (name) => bonds.reduce((cents, bond) => cents + bond[name], 0n);
  return { bonds, price: sum("price"), interest: sum("interest"), value: sum("value") };
}

export class Receipts {
  #database;

  constructor(database) {
    this.#database = database;
  }

  static async open() {
    return new Receipts(await opened());
  }

  // Keeps a record, once however often it is kept. It is on the disk before this is answered. Rejects with Unstored if it can't be written.
  async keep(record) {
    try {
      await this.#in("readwrite", (store) => store.put(record));
    } catch (error) {
      throw new Unstored(error);
    }
  }

  // The record of a ticket of the counter, or null.
  async of(ticket) {
    const records = await this.between(ticket.ticket, ticket.ticket);
    return records.find((record) => isOf(record, ticket)) ?? null;
  }

  // The records of the tickets from one number to another, in the order of the tickets.
  between(first, last) {
    return this.#in("readonly", (store) => store.index(BY_TICKET).getAll(IDBKeyRange.bound(first, last)));
  }

  // How many records are kept.
  count() {
    return this.#in("readonly", (store) => store.count());
  }

  // How many records are of days up to `day`, and the first and the last of their days, which are null if there is none.
  async upTo(day) {
    let found = null;
    const start = () => (found = { count: 0, first: null, last: null });
    await this.#visit("readonly", start, ({ value }) => {
      if (value.day > day) return;
      found.count += 1;
      if (found.first === null || value.day < found.first) found.first = value.day;
      found.last = laterOf(found.last, value.day);
    });
    return found;
  }

  // Deletes all records of days up to `day`, or none: rejects with Unstored then. How many they were.
  async deleteUpTo(day) {
    let count = 0;
    const start = () => (count = 0);
    const work = (cursor) => {
      if (cursor.value.day > day) return;
      cursor.delete();
      count += 1;
    };
    try {
      await this.#visit("readwrite", start, work);
    } catch (error) {
      throw new Unstored(error);
    }
    return count;
  }

  // Calls `start`, and `work` with a cursor at every record, all in one transaction. If the transaction is made again, both are called again.
  #visit(mode, start, work) {
    return this.#in(mode, (store) => {
      start();
      const request = store.openCursor();
      request.onsuccess = () => {
        if (request.result === null) return;
        work(request.result);
        request.result.continue();
      };
      return request;
    });
  }

  // A browser may close the database, as when its storage is cleared.
  async #in(mode, work) {
    try {
      return await this.#once(mode, work);
    } catch (error) {
      if (error?.name !== "InvalidStateError") throw error;
      this.#database = await opened();
      return this.#once(mode, work);
    }
  }

  async #once(mode, work) {
    const transaction = this.#database.transaction(STORE, mode, { durability: "strict" });
    const request = work(transaction.objectStore(STORE));
    await completed(transaction);
    return request.result;
  }
}
