// What the tests run within the calculator's page: `Browser.calls` calls a function by its name.

async function opened() {
    const request = indexedDB.open("savings-bond-calculator", 1);
    request.onupgradeneeded = () => request.result.createObjectStore("kept");
    await new Promise((resolve) => { request.onsuccess = resolve; });
    return request.result;
}

/** What the browser keeps, read beside the page. */
export async function record() {
    const database = await opened();
    const got = database.transaction("kept").objectStore("kept").get("inventory");
    await new Promise((resolve) => { got.onsuccess = resolve; });
    database.close();
    return got.result ?? null;
}

/** Writes it beside the page. */
export async function put_record(record) {
    const database = await opened();
    const act = database.transaction("kept", "readwrite");
    act.objectStore("kept").put(record, "inventory");
    await new Promise((resolve) => { act.oncomplete = resolve; });
    database.close();
}

/** By row, the texts of a table's cells. A serial number is without the button beside it. */
export function cells(selector) {
    const text = (cell) => (cell.querySelector(".code") ?? cell).textContent;
    return [...document.querySelectorAll(`${selector} tbody tr`)].map((row) => [...row.children].map(text));
}

/** The terms of a list, each with its text. */
export function terms(selector) {
    return [...document.querySelectorAll(`${selector} dt`)].map((one) => [one.textContent, one.nextSibling.textContent]);
}

export function write(selector, text) {
    const field = document.querySelector(selector);
    field.value = text;
    field.dispatchEvent(new Event("input", { bubbles: true }));
}

export function paste(text) {
    const field = document.querySelector("#pasted");
    document.querySelector("#paste-form").closest("details").open = true;
    field.value = text;
    field.dispatchEvent(new InputEvent("input", { inputType: "insertFromPaste" }));
}

export function open_bond(serial) {
    const button = [...document.querySelectorAll("#table .open")].find((one) => one.textContent === serial);
    button.focus();
    button.click();
}

export function many_pasted() {
    const lines = Array.from({ length: 50000 }, (_, place) => `C${place + 1}EE\t50\t2010-05`);
    document.querySelector("#pasted").value = lines.join("\n");
    document.querySelector("#pasted").dispatchEvent(new Event("input"));
}

/** Empties the storage, as a person does who clears the browser's data. */
export async function clear() {
    const request = indexedDB.deleteDatabase("savings-bond-calculator");
    await new Promise((resolve, reject) => { request.onsuccess = resolve; request.onblocked = reject; });
    return true;
}

export async function fifty_thousand() {
    const lines = Array.from({ length: 50000 }, (_, n) => `L${n + 1}EE\t50\t${1 + (n % 12)}/${2006 + (n % 5)}`);
    const field = document.querySelector("#pasted"), bar = document.querySelector("#working-box");
    const seen = [];
    new MutationObserver(() => { if (!bar.hidden) seen.push(document.querySelector("#working").value); }).observe(bar, { attributes: true, subtree: true });
    field.closest("details").open = true;
    const begun = performance.now();
    const until = async (done) => { while (!done()) await new Promise((resolve) => setTimeout(resolve, 5)); };
    field.value = lines.join("\n");
    field.dispatchEvent(new Event("input"));
    await until(() => document.querySelector("#paste-add").textContent.includes("50,000"));
    const read = performance.now();
    document.querySelector("#paste-form").requestSubmit();
    await until(() => document.querySelector("#told-text").textContent.includes("50,000 bonds added"));
    return { read: read - begun, all: performance.now() - begun, seen, is_hidden: bar.hidden };
}

export function over() {
    const wide = [...document.querySelectorAll("body *")].filter((one) => one.checkVisibility() && one.getBoundingClientRect().right > innerWidth + 1 && one.closest(".skip") === null);
    return [document.documentElement.scrollWidth > innerWidth, wide.slice(0, 5).map((one) => one.outerHTML.slice(0, 120))];
}

/** Cells of the table whose text is wider than they are. */
export function cut() {
    const cells = [...document.querySelectorAll("#table tbody th, #table tbody td, #table thead th")].filter((one) => one.checkVisibility());
    return cells.filter((one) => one.scrollWidth > one.clientWidth + 1).map((one) => `${one.className} ${one.textContent}`);
}

/** Words and sums that are broken over two lines. */
export function broken() {
    const texts = [];
    for (const root of document.querySelectorAll("dialog[open], #understood-rows, #table, #total, #sums, #one-told")) {
        const walker = document.createTreeWalker(root, NodeFilter.SHOW_TEXT);
        while (walker.nextNode()) if (walker.currentNode.parentNode.checkVisibility()) texts.push(walker.currentNode);
    }
    const lines = (node, start, end) => { const range = document.createRange(); range.setStart(node, start); range.setEnd(node, end); return new Set([...range.getClientRects()].map((box) => Math.round(box.top))).size; };
    return texts.flatMap((node) => [...node.data.matchAll(/\S+/g)].filter((word) => lines(node, word.index, word.index + word[0].length) > 1).map((word) => word[0]));
}

export function small() {
    const shown = [...document.querySelectorAll("button, input, select, summary")].filter((one) => one.checkVisibility() && one.type !== "checkbox");
    return shown.filter((one) => one.getBoundingClientRect().height < 24).map((one) => one.outerHTML.slice(0, 120));
}

export function value_first() {
    const row = document.querySelector("#table tbody tr"), top = (name) => row.querySelector(`.${name}`).getBoundingClientRect().top;
    return top("serial") < top("value") && ["denom", "issued", "next", "price"].every((name) => top("value") <= top(name));
}

export function outside() {
    const { left, right, top, bottom } = document.activeElement.getBoundingClientRect();
    return left < 0 || top < 0 || right > innerWidth || bottom > innerHeight || !document.activeElement.matches("dialog *");
}

export function names() {
    const shown = (one) => one.checkVisibility();
    const all = (words) => [...document.querySelectorAll(words)];
    const fields = all("input, select, textarea").filter((one) => one.labels.length === 0 && !one.hasAttribute("aria-label"));
    const buttons = all("button, a, summary").filter((one) => one.textContent.trim() === "" && shown(one));
    const levels = all("h1, h2, h3").filter(shown).map((one) => Number(one.tagName[1]));
    const jumps = levels.filter((level, at) => level - (levels[at - 1] ?? 0) > 1);
    const ids = all("[id]").map((one) => one.id);
    const live = all("[aria-live], [role=status], [role=alert], output").map((one) => one.id);
    const ordered = all("[tabindex]").filter((one) => one.tabIndex > 0);
    const svgs = all("svg").filter((one) => one.getAttribute("role") !== "img" || !one.getAttribute("aria-label"));
    const untold = all("[data-text]").filter((one) => one.textContent === "" || one.textContent === "undefined");
    const none = [fields, buttons, jumps, ordered, svgs, untold].map((one) => one.length);
    return [none, levels.filter((level) => level === 1).length, ids.length - new Set(ids).size, live, document.documentElement.lang];
}

export function poor() {
    const parts = (text) => text.match(/[0-9.]+/g).map(Number);
    const straight = (c) => (c <= 0.04045 ? c / 12.92 : ((c + 0.055) / 1.055) ** 2.4);
    const light = (text) => { const [r, g, b] = parts(text).map((c) => straight(c / 255)); return 0.2126 * r + 0.7152 * g + 0.0722 * b; };
    const ground = (one) => { for (let at = one; at !== null; at = at.parentElement) { const color = getComputedStyle(at).backgroundColor; if (parts(color)[3] !== 0) return color; } return "rgb(255, 255, 255)"; };
    const has_text = (one) => [...one.childNodes].some((node) => node.nodeType === 3 && node.data.trim() !== "") || one.matches("input");
    const seen = [...document.querySelectorAll("body *")].filter((one) => one.checkVisibility() && has_text(one) && one.closest(".skip, option, noscript") === null);
    const ratio = (one) => {
        const style = getComputedStyle(one);
        const [more, less] = [light(one.namespaceURI.includes("svg") ? style.fill : style.color), light(ground(one))].sort((x, y) => y - x);
        return (more + 0.05) / (less + 0.05);
    };
    return [seen.length, seen.filter((one) => ratio(one) < 4.5).map((one) => `${one.tagName} ${one.getAttribute("class")} ${one.textContent.slice(0, 30)}`)];
}

export async function attempts(other) {
    const fetched = await fetch(other).then(() => "passed", () => "stopped");
    const evaluated = await new Promise((resolve) => { const script = document.createElement("script"); script.textContent = "window.ran = true"; document.head.append(script); setTimeout(() => resolve(window.wrappedJSObject?.ran ?? window.ran ? "passed" : "stopped"), 50); });
    const drawn = await new Promise((resolve) => { const image = new Image(); image.onload = () => resolve("passed"); image.onerror = () => resolve("stopped"); image.src = other + "icon.svg"; });
    return [fetched, evaluated, drawn];
}

export async function frames() {
    await new Promise((resolve) => setTimeout(resolve, 1000));
    const frames = [];
    document.querySelector("#table").scrollIntoView();
    for (let count = 0; count < 200; count++) {
        const begun = performance.now();
        scrollBy(0, 800);
        await new Promise(requestAnimationFrame);
        frames.push(performance.now() - begun);
    }
    frames.sort((one, other) => one - other);
    return [scrollY, frames[100]];
}

export function controls() {
    const shown = (one) => one.checkVisibility() && one.closest("details:not([open])") === null;
    const all = [...document.querySelectorAll("main a, main button, main input, main select, main textarea, main summary")];
    return all.filter((one) => (one.matches("summary") || shown(one)) && !one.matches(".open, .skip")).map((one) => one.id || one.dataset.column || one.dataset.text || one.textContent);
}

/** What has the keyboard, and its outline. */
export function outline() {
    const one = document.activeElement;
    const { outlineStyle, outlineWidth } = getComputedStyle(one);
    return one === document.body ? ["", ""] : [one.id || one.dataset.column || one.dataset.text || one.textContent, `${outlineStyle} ${outlineWidth}`];
}

/** Whether the value of one bond stands above everything else, and in the window. */
export function is_above() {
    const top = (one) => one.getBoundingClientRect().top;
    const [first, ...others] = document.querySelectorAll("main > section");
    return first.id === "one" && others.every((one) => !one.checkVisibility() || top(one) > top(first)) && document.querySelector("#one-words").getBoundingClientRect().bottom < innerHeight;
}

/** A change of what the browser keeps beside the bonds: the filter, and a month. */
export function filter() {
    write("#filter", "C");
    document.querySelector("#month-on").click();
}

/** Databases aren't opened until `let_go`. */
export function hold_databases() {
    const open = IDBFactory.prototype.open;
    window.held = [];
    IDBFactory.prototype.open = function (...given) {
        const request = open.apply(this, given);
        Object.defineProperty(request, "onsuccess", { set(tell) { request.addEventListener("success", (event) => { window.held === null ? tell(event) : window.held.push(() => tell(event)); }); } });
        return request;
    };
}

export function let_go() {
    const held = window.held;
    window.held = null;
    for (const tell of held) tell();
}
