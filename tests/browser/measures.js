// What is measured of the tellers' page as it is laid out: what is in sight, whole, covered or broken.

const all = (selector) => [...document.querySelectorAll(selector)];
const box = (selector) => document.querySelector(selector).getBoundingClientRect();
const rects = (node) => {
    const range = document.createRange();
    range.selectNodeContents(node);
    return [...range.getClientRects()].filter((one) => one.width > 0);
};
const lines = (...nodes) => new Set(nodes.flatMap(rects).map((one) => Math.round(one.bottom))).size;
const is_on_top = (e) => {
    const { left, right, top, bottom } = e.getBoundingClientRect();
    const at = document.elementFromPoint((left + right) / 2, (top + bottom) / 2);
    return at === e || e.contains(at);
};

export function edges(selector) {
    const { top, bottom } = box(selector);
    return [top, bottom];
}

export function in_window(selector) {
    const { top, bottom, left, right } = box(selector);
    return top >= 0 && bottom > top && bottom <= innerHeight + 1 && left >= 0 && right > left && right <= innerWidth + 1;
}

/** To a part of the whole page, from 0 to 1. */
export function scroll_to(part) {
    scrollTo(0, part * document.documentElement.scrollHeight);
}

export function headings_on_top() {
    return all("#sheet thead th").filter(is_on_top).length;
}

export function whole_bonds() {
    const [top, bottom] = [Math.max(0, box("#told").bottom, box("#sheet thead").bottom), box("#pay-bonds").top];
    const rows = all("#sheet tbody tr").map((row) => row.getBoundingClientRect());
    return rows.filter((row) => row.top > top - 1 && row.bottom < bottom + 1).length;
}

/** What a card begins with. */
export function first_cells() {
    const cells = all("#sheet tbody tr:first-child > *").map((e) => [e.className.replace("money ", ""), e.getBoundingClientRect()]);
    const order = cells.filter(([, box]) => box.width > 0).sort(([, x], [, y]) => Math.round(x.top - y.top) || x.left - y.left).map(([name]) => name);
    return order.slice(0, 3).sort();
}

/** What has the keyboard and lies below the notices or below Pay, where there is room for it. */
export function covered() {
    const at = document.activeElement;
    const place = at.getBoundingClientRect();
    const covers = (selector) => {
        const { top, bottom, height } = box(selector);
        const is_over = place.bottom > top + 1 && place.top < bottom - 1;
        return height > 0 && !document.querySelector(selector).contains(at) && is_over;
    };
    const room = innerHeight - box("#told").height - box("#pay-bonds").height;
    return at !== document.body && place.height < room && ["#told", "#pay-bonds"].some(covers) ? at.outerHTML.slice(0, 200) : null;
}

/** Which cells of the first bond have these texts on more than one line, and whether the page is wider than the window. */
export function broken_cells(texts) {
    const cell = (name) => document.querySelector(`#sheet tbody .of-${name}`);
    for (const [name, text] of Object.entries(texts)) cell(name).textContent = text;
    const broken = Object.keys(texts).filter((name) => lines(cell(name)) > 1);
    return document.documentElement.scrollWidth > innerWidth ? [...broken, "window"] : broken;
}

/** At how many places the cells of a column begin, in the column with the most. */
export function edges_of_a_column() {
    const rows = all(".sheet :is(thead, tbody) tr");
    const edges = (place) => new Set(rows.map((row) => row.children[place].getBoundingClientRect().left)).size;
    return Math.max(...[0, 1, 2, 3, 4, 5].map(edges));
}

/** The cells of the first bond whose texts lie over one another, or less than three pixels apart in a line. */
export function meeting_cells() {
    const cells = [...document.querySelector(".sheet tbody tr").cells].filter((cell) => cell.checkVisibility() && cell.textContent !== "");
    const boxes = cells.map(rects);
    const meet = (one, other) => one.left < other.right + 3 && other.left < one.right + 3 && one.top < other.bottom && other.top < one.bottom;
    const pairs = cells.flatMap((cell, at) => cells.slice(at + 1).map((other, after) => [cell, other, boxes[at].some((one) => boxes[at + 1 + after].some((two) => meet(one, two)))]));
    return pairs.filter(([, , do_meet]) => do_meet).map(([one, other]) => `${one.textContent} ${other.textContent}`);
}

export function lines_of_a_bond() {
    return lines(...all("#confirm .bonds li:first-child span"));
}

/** The words within an element that stand on more than one line, or leave the window. A hyphen may end a line, and so may any letter of the proxy's log entry. */
export function broken_words(selector) {
    const broken = [];
    for (const root of document.querySelectorAll(selector)) {
        const walk = document.createTreeWalker(root, NodeFilter.SHOW_TEXT);
        while (walk.nextNode()) {
            const at = walk.currentNode;
            if (!at.parentElement.checkVisibility() || at.parentElement.closest(".unseen, .printed, .code") !== null) continue;
            for (const word of at.data.matchAll(/[^\s-]{2,}/g)) {
                const range = document.createRange();
                range.setStart(at, word.index);
                range.setEnd(at, word.index + word[0].length);
                const boxes = [...range.getClientRects()].filter((box) => box.width > 0);
                const is_out = boxes.some((box) => box.left < 0 || box.right > innerWidth);
                if (is_out || new Set(boxes.map((box) => Math.round(box.top))).size > 1) broken.push(word[0]);
            }
        }
    }
    return broken;
}

/** The buttons and links within an element that aren't in sight, and how many are there. */
export function unseen_acts(selector) {
    const acts = all(selector).flatMap((root) => [...root.querySelectorAll("button, a")]).filter((one) => one.checkVisibility());
    const is_seen = (one) => {
        const { left, right, top, bottom } = one.getBoundingClientRect();
        return top >= 0 && left >= 0 && bottom <= innerHeight && right <= innerWidth && is_on_top(one);
    };
    return [acts.filter((one) => !is_seen(one)).map((one) => one.textContent), acts.length];
}

/** The style and the width of the outline of what has the keyboard, and of the field of the month. */
export function outlines() {
    const outline = (e) => [getComputedStyle(e).outlineStyle, parseFloat(getComputedStyle(e).outlineWidth)];
    return [outline(document.activeElement), outline(document.querySelector("#month"))];
}

export function sizes_of_letters(...selectors) {
    return selectors.map((one) => parseFloat(getComputedStyle(document.querySelector(one)).fontSize));
}
