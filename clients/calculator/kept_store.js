// One record in the browser's IndexedDB: what the page keeps. A write names the version that it replaces, so a tab never overwrites what another
// tab kept. Earlier versions of the page kept a text in localStorage: it is read if there is no record, and removed once a record is written.

const NAME = "savings-bond-calculator";
const STORE = "kept";
const RECORD = "inventory";

function resultOf(request) {
  return new Promise((resolve, reject) => {
    request.onsuccess = () => resolve(request.result);
    request.onerror = () => reject(request.error);
  });
}

function ended(transaction) {
  return new Promise((resolve, reject) => {
    transaction.oncomplete = () => resolve();
    transaction.onabort = () => reject(transaction.error);
  });
}

// Opens the database for one use.
async function used(use) {
  const request = indexedDB.open(NAME, 1);
  request.onupgradeneeded = () => request.result.createObjectStore(STORE);
  const database = await resultOf(request);
  try {
    return await use(database);
  } finally {
    database.close();
  }
}

// What an earlier version of the page kept: a record without a version, or undefined.
function earlierRecord() {
  const text = localStorage.getItem(NAME);
  if (text === null) return undefined;
  try {
    return { ...JSON.parse(text), version: undefined, text };
  } catch {
    return { version: undefined, text };
  }
}

/** Returns the record, or undefined if nothing is kept. Rejects if the browser lets nothing be read. */
export async function readRecord() {
  const found = await used((database) => resultOf(database.transaction(STORE).objectStore(STORE).get(RECORD)));
  return found ?? earlierRecord();
}

/** Returns whether a record is kept. */
export async function hasRecord() {
  return (await used((database) => resultOf(database.transaction(STORE).objectStore(STORE).getKey(RECORD)))) !== undefined;
}

/**
 * Writes a record, or removes it if `record` is null, provided that the record there has the version `version`. Returns whether it did. Rejects
 * if the browser refuses; the record there is then as it was.
 */
export async function replaceRecord(version, record) {
  const is_done = await used(async (database) => {
    const transaction = database.transaction(STORE, "readwrite", { durability: "strict" });
    const end = ended(transaction);
    const store = transaction.objectStore(STORE);
    const found = await resultOf(store.get(RECORD));
    if (found?.version !== version) return false;
    if (record === null) store.delete(RECORD);
    else store.put(record, RECORD);
    await end;
    return true;
  });
  if (is_done) localStorage.removeItem(NAME);
  return is_done;
}
