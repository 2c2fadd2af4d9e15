// What the tests run within the page for tellers: `Browser.calls` calls a function by its name.

/** Opens one of the page's own databases. */
async function opened(name) {
    const request = indexedDB.open(name);
    await new Promise((resolve) => { request.onsuccess = resolve; });
    return request.result;
}

async function read(name, ask) {
    const database = await opened(name);
    const request = ask(database);
    await new Promise((resolve) => { request.onsuccess = resolve; });
    database.close();
    return request.result;
}

export async function journal() {
    const record = await read("ladwenpik-teller", (database) => database.transaction("journal").objectStore("journal").get("journal"));
    return record ?? {};
}

/** What the browser keeps of payments, in the order of the tickets. */
export async function receipts() {
    return read("ladwenpik-receipts", (database) => database.transaction("payments").objectStore("payments").index("ticket").getAll());
}

/** Writes another journal, which a function makes of the one that is there. */
export async function write_journal(change) {
    const database = await opened("ladwenpik-teller");
    const writing = database.transaction("journal", "readwrite");
    const store = writing.objectStore("journal");
    const reading = store.get("journal");
    reading.onsuccess = () => store.put(change(reading.result), "journal");
    await new Promise((resolve) => { writing.oncomplete = resolve; });
    database.close();
}

/** For `write_journal`: with an open payment as an earlier version of the page stored it, without its bonds. */
export function earlier_open(record) {
    const fields = { day: "2012-02-06", payee: 7, serials: ["L7EE"] };
    const open = { number: record.next, step: 1, sent: 0, path: "/redeem", fields, shown: "2516" };
    return { ...record, next: record.next + 1, open };
}

/** Notes when the button that confirms began to rest, and when it ended. */
export function watch_rests() {
    window.rests = [];
    const button = document.getElementById("confirm-yes");
    new MutationObserver(() => window.rests.push([button.hasAttribute("aria-disabled"), performance.now()])).observe(button, { attributeFilter: ["aria-disabled"] });
}

/** Counts tones in place of making them. */
export function watch_beeps() {
    window.beeps = 0;
    const tone = () => ({ frequency: {}, connect() {}, stop() {}, start() { window.beeps += 1; } });
    window.AudioContext = class {
        get currentTime() { return performance.now() / 1000; }
        resume() { return Promise.resolve(); }
        createOscillator() { return tone(); }
    };
}

/** Keeps each step that the page says of a request, also one that is in sight for half a second alone. */
export function watch_steps() {
    const progress = document.getElementById("progress-text");
    window.steps = [];
    new MutationObserver(() => window.steps.push(progress.textContent)).observe(progress, { childList: true });
}

/** The bonds of the question: of each the texts of its line. */
export function bonds_asked() {
    return [...document.querySelectorAll("#confirm .bonds li")].map((line) => [...line.children].map((part) => part.textContent));
}

/** No dialogue of the browser's; how often the page printed. */
export function count_prints() {
    window.prints = 0;
    window.print = () => { window.prints += 1; };
}

/** Pauses of these milliseconds end by their button alone, however slow the test is. */
export function hold(...pauses) {
    const real = window.setTimeout;
    window.setTimeout = (act, wait, ...more) => (pauses.includes(wait) ? 0 : real(act, wait, ...more));
}

/** Counts how often the page comes to the field for bonds in hand. */
export function watch_jumps() {
    window.jumps = 0;
    const field = document.getElementById("in-hand");
    addEventListener("scroll", () => { window.jumps += field.getBoundingClientRect().bottom > 0 ? 1 : 0; });
}

/** The files that came over the network, and their bytes. */
export function loaded() {
    const files = performance.getEntriesByType("resource").filter((one) => one.transferSize > 0 && !one.name.endsWith("/user"));
    return [files.map((one) => one.name.split("/").at(-1)).sort(), files.reduce((sum, one) => sum + one.transferSize, 0)];
}

/** All storage that a page may use, beside its two databases. */
export async function storages() {
    const databases = (await indexedDB.databases()).map((one) => one.name);
    return [[Object.entries(localStorage), Object.entries(sessionStorage), await caches.keys(), document.cookie], databases.sort(), location.href];
}

export function heard() {
    window.heard = [];
    const real = window.fetch;
    window.fetch = (url, options) => {
        const headers = new Headers(options.headers);
        const names = ["X-Counter-Client", "Content-Type", "X-Counter-Sending"].map((name) => headers.get(name));
        window.heard.push([options.method, new URL(url).pathname, ...names]);
        return real(url, options);
    };
}

/** What the page reads as the server's time, from the next response on. */
export function server_date(date) {
    const real = window.realGet ??= Headers.prototype.get;
    Headers.prototype.get = function (name) { return name === "Date" ? date : real.call(this, name); };
}

/** The deletion of the second record after this fails. */
export function deleting() {
    const real = window.realDelete = IDBCursor.prototype.delete;
    let skipped = 1;
    IDBCursor.prototype.delete = function () {
        if (skipped-- === 0) throw new DOMException("the browser's own words", "UnknownError");
        return real.call(this);
    };
}

/** What a question is like as it opens, however long this test then takes to look: whether its button rests, and what has the keyboard. */
export function at_first() {
    const real = HTMLDialogElement.prototype.showModal;
    HTMLDialogElement.prototype.showModal = function () {
        real.call(this);
        setTimeout(() => { window.at_first = [document.getElementById("confirm-yes").getAttribute("aria-disabled"), document.activeElement.id]; }, 0);
    };
}

/** The pixels between a notice's edges and its button Close: above and below. */
export function room() {
    const [notice, close] = ["#notices .notice", "#notices .close"].map((which) => document.querySelector(which).getBoundingClientRect());
    return [close.top - notice.top, notice.bottom - close.bottom];
}

/** Opens the question with the pointer far away, and then at nine places of each box in which its button lay so far; at which of them the button is less than 16 pixels away, and how many there were. */
export async function near() {
    const yes = document.getElementById("confirm-yes");
    const box = async (x, y) => {
        dispatchEvent(new PointerEvent("pointermove", { clientX: x, clientY: y }));
        document.getElementById("pay-bonds").requestSubmit();
        while (!document.getElementById("confirm").open) await new Promise((resolve) => setTimeout(resolve));
        const { left, right, top, bottom } = yes.getBoundingClientRect();
        document.getElementById("confirm").close("no");
        return { left, right, top, bottom };
    };
    const name = (one) => JSON.stringify(Object.values(one).map(Math.round));
    const boxes = new Map([await box(-99, -99)].map((one) => [name(one), one]));
    const near = [];
    let count = 0;
    for (const { left, right, top, bottom } of boxes.values()) {
        for (const x of [left - 12, (left + right) / 2, right + 12]) {
            for (const y of [top - 12, (top + bottom) / 2, bottom + 12]) {
                const other = await box(x, y);
                if (x >= other.left - 16 && x <= other.right + 16 && y >= other.top - 16 && y <= other.bottom + 16) near.push([Math.round(x), Math.round(y), name(other)]);
                boxes.set(name(other), other);
                count += 1;
            }
        }
    }
    return [near, count];
}

/** By the page's own clock, so that a busy machine puts off the presses and the rest alike. */
export async function presses() {
    for (let count = 0; count < 8; count += 1) {
        document.getElementById("confirm-yes").click();
        await new Promise((resolve) => setTimeout(resolve, 400));
    }
}

/** Has the page note the longest time in which no timer of its own came. */
export function watch() {
    window.longest = 0;
    let last = performance.now();
    clearInterval(window.watch);
    window.watch = setInterval(() => {
        const now = performance.now();
        window.longest = Math.max(window.longest, now - last);
        last = now;
    }, 4);
}

/** By the page's own events: the driver's way to type and to read a text stops the page itself. */
export function type(selector, text, submits) {
    const field = document.querySelector(selector);
    field.value = text;
    field.dispatchEvent(new Event("input", { bubbles: true }));
    if (submits) field.form.requestSubmit();
}

/** The rows that are there, whether each knows its place among all, and how many the table says it has. */
export function rows() {
    const table = document.querySelector("table.sheet");
    const rows = [...table.querySelectorAll("tbody tr")];
    const are_placed = [...table.querySelectorAll("tr")].every((row, at) => Number(row.getAttribute("aria-rowindex")) === at + 1);
    return [rows.length, are_placed, Number(table.getAttribute("aria-rowcount"))];
}

/** The next `count` writings of a store after `skipped` ones fail, as in a browser without room. */
export function failing(skipped, count, name, store) {
    const real = window.realPut ??= IDBObjectStore.prototype.put;
    IDBObjectStore.prototype.put = function (...given) {
        if (this.name !== (store ?? this.name)) return real.apply(this, given);
        if (skipped > 0) skipped -= 1;
        else if (count > 0) {
            count -= 1;
            throw new DOMException("the browser's own words", name);
        }
        return real.apply(this, given);
    };
}

export function unhandled() {
    window.unhandled = [];
    addEventListener("unhandledrejection", (event) => window.unhandled.push(String(event.reason)));
    addEventListener("error", (event) => window.unhandled.push(event.message));
}

export function closing() {
    const real = IDBDatabase.prototype.transaction;
    IDBDatabase.prototype.transaction = function (...given) {
        if (!window.is_closed) {
            window.is_closed = true;
            this.close();
        }
        return real.apply(this, given);
    };
}

export async function changes() {
    const { Journal } = await import(new URL("/teller/journal.js", location.origin));
    const journal = await Journal.open();
    await Promise.all([journal.change({ day: "2012-02-06" }), journal.change({ last: 5 }), journal.change({ day: "2012-02-07" })]);
    return (await Journal.open()).record;
}

export function loose() {
    const loose = [];
    const walk = document.createTreeWalker(document.body, NodeFilter.SHOW_TEXT);
    while (walk.nextNode()) {
        const at = walk.currentNode.parentElement;
        if (at.closest("noscript, #starting, #too-old, #unreadable, #incomplete") === null) loose.push(walk.currentNode.data);
    }
    const labels = [...document.querySelectorAll("[aria-label]")].map((e) => e.getAttribute("aria-label"));
    return [...loose, ...labels, document.title];
}

export async function unknown() {
    const { unknownWords } = await import(new URL("/teller/words.js", location.origin));
    return unknownWords();
}

/** A print with its total in the foot of each sheet. */
export function total_in_each_foot() {
    for (const leaf of document.querySelectorAll("#ticket .leaf table")) {
        const foot = document.createElement("tfoot");
        foot.innerHTML = "<tr><td></td><th>Total</th><td>$2,516.00</td></tr>";
        leaf.append(foot);
    }
}

/** Whether each print of the browser's own has the word of a copy. */
export function prints() {
    window.prints = [];
    window.print = () => window.prints.push(document.querySelector("#ticket .copy") !== null);
}
