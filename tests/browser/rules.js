// Rules of accessibility, each asked of what is shown, and for each a change of the page that breaks it. No package of Debian's has a checker for pages.

const all = (selector) => [...document.querySelectorAll(selector)];
const shown = (e) => e.checkVisibility({ visibilityProperty: true }) && e.closest(".unseen") === null && e.getBoundingClientRect().right > 0;
const brief = (e) => e.outerHTML.slice(0, 120);
const parts = (text) => text.match(/[0-9.]+/g).map(Number);
const straight = (c) => (c <= 0.04045 ? c / 12.92 : ((c + 0.055) / 1.055) ** 2.4);
const light = (text) => {
    const [r, g, b] = parts(text).map((c) => straight(c / 255));
    return 0.2126 * r + 0.7152 * g + 0.0722 * b;
};
const ground = (e) => {
    for (let at = e; at !== null; at = at.parentElement) {
        const color = getComputedStyle(at).backgroundColor;
        if (parts(color)[3] !== 0) return color;
    }
    return "rgb(255, 255, 255)";
};
const has_text = (e) => [...e.childNodes].some((n) => n.nodeType === 3 && n.data.trim() !== "") || e.matches("input");
const ratio = (color, other) => {
    const [more, less] = [light(color), light(other)].sort((x, y) => y - x);
    return (more + 0.05) / (less + 0.05);
};
const contrast = (e) => ratio(getComputedStyle(e).color, ground(e));
const references = (e) => ["aria-labelledby", "aria-describedby"].flatMap((name) => (e.getAttribute(name) ?? "").split(" ").filter((id) => id !== ""));
const target = (e) => (e.closest("tr.choosable, tr.barred") ?? e).getBoundingClientRect();
const in_text = (e) => e.matches("a:not(.button)") && getComputedStyle(e).display === "inline";
const levels = all("h1, h2, h3, h4").filter((e) => e.checkVisibility()).map((e) => Number(e.tagName[1]));

/** By rule: what breaks it, and for the control a change of the page by which something does, until the page is loaded again. */
const RULES = {
    "each field has a label": [
        () => all("input").filter(shown).filter((e) => e.labels.length === 0 && !e.hasAttribute("aria-label")).map(brief),
        () => { all("label").filter(shown)[0].remove(); },
    ],
    "each button and link has a text": [
        () => all("button, a[href]").filter(shown).filter((e) => e.textContent.trim() === "").map(brief),
        () => { all("button").filter(shown)[0].textContent = ""; },
    ],
    "there is one heading of the first level": [
        () => levels.filter((level) => level === 1).length === 1 ? [] : levels,
        () => { all("section:not([hidden])")[0].append(document.createElement("h1")); },
    ],
    "no level of headings is left out": [
        () => levels.filter((level, at) => level - (levels[at - 1] ?? 0) > 1),
        () => { all("section:not([hidden])")[0].append(document.createElement("h4")); },
    ],
    "nothing stands out of the order of tabs": [
        () => all("[tabindex]").filter((e) => e.tabIndex > 0).map(brief),
        () => { all("button")[0].tabIndex = 3; },
    ],
    "no name of an element comes twice": [
        () => all("[id]").map((e) => e.id).filter((id, at, ids) => ids.indexOf(id) !== at),
        () => { document.body.append(Object.assign(document.createElement("p"), { id: "main" })); },
    ],
    "the page names its language and its title": [
        () => document.documentElement.lang === "en" && document.title.length > 3 ? [] : ["lang or title"],
        () => { document.documentElement.lang = ""; },
    ],
    "what describes an element is there": [
        () => all("*").flatMap((e) => references(e).filter((id) => document.getElementById(id) === null)),
        () => { all("button")[0].setAttribute("aria-describedby", "nowhere"); },
    ],
    "each text has a contrast of 4.5 to 1": [
        () => all("body *").filter(shown).filter(has_text).filter((e) => contrast(e) < 4.5).map(brief),
        () => { all("h1").filter(shown)[0].style.color = "#999999"; },
    ],
    "each field's border has a contrast of 3 to 1": [
        () => all("input:not([type=checkbox]), select, textarea").filter(shown).filter((e) => ratio(getComputedStyle(e).borderTopColor, ground(e.parentElement)) < 3).map(brief),
        () => { all("input").filter(shown)[0].style.borderColor = "#aaaaaa"; },
    ],
    "each heading of a table says of what": [
        () => all("th").filter((e) => !["col", "row"].includes(e.scope)).map(brief),
        () => { document.body.append(document.createElement("th")); },
    ],
    "each table has a caption": [
        () => all("table").filter(shown).filter((e) => e.caption === null || e.caption.textContent === "").map(brief),
        () => { all("section:not([hidden])")[0].append(document.createElement("table")); },
    ],
    "there is one live region": [
        () => all("[aria-live], [role=status], [role=alert], [role=log], output").length === 1 ? [] : ["live regions"],
        () => { all("h1")[0].setAttribute("aria-live", "polite"); },
    ],
    "banner, main and a named navigation": [
        () => ["header", "main"].filter((name) => all(name).length !== 1).concat(all("nav").filter((e) => !e.getAttribute("aria-label")).map(brief)),
        () => { all("nav")[0].removeAttribute("aria-label"); },
    ],
    "a dialog has a name and a description": [
        () => all("dialog").filter((e) => references(e).length < 2).map(brief),
        () => { all("dialog")[0].removeAttribute("aria-describedby"); },
    ],
    "a field that is marked is described": [
        () => all("[aria-invalid=true]").filter((e) => !(e.getAttribute("aria-describedby") ?? "").includes(e.id + "-error")).map(brief),
        () => { all("input")[0].setAttribute("aria-invalid", "true"); },
    ],
    "what can be pressed is 44 pixels high and 44 wide, a row 36 high": [
        () => all("button, input, a[href], label input").filter(shown).filter((e) => !in_text(e)).filter((e) => target(e).height < (e.closest("tr") ? 35.5 : 43.5) || target(e).width < 43.5).map(brief),
        () => { all("button").filter(shown)[0].style.cssText = "min-height: 0; height: 30px; padding: 0"; },
    ],
    "nothing goes over the edge": [
        () => document.documentElement.scrollWidth <= innerWidth ? [] : [document.documentElement.scrollWidth + " of " + innerWidth],
        () => { all("h1").filter(shown)[0].style.cssText = "width: 120vw"; },
    ],
    "no text is cut": [
        () => all("body *").filter(shown).filter((e) => has_text(e) && !e.matches("input") && getComputedStyle(e).overflowX !== "visible" && e.scrollWidth > e.clientWidth + 1).map(brief),
        () => { all("h1").filter(shown)[0].style.cssText = "width: 1em; overflow: hidden; white-space: nowrap"; },
    ],
};

/** The rules that are broken, each with what breaks it. */
export function broken_rules() {
    const found = Object.entries(RULES).map(([name, [rule]]) => [name, rule()]);
    return Object.fromEntries(found.filter(([, breaks]) => breaks.length > 0));
}

export function rules() {
    return Object.keys(RULES);
}

export function break_rule(name) {
    RULES[name][1]();
}

export function least_contrast() {
    return Math.min(...all("body *").filter(shown).filter(has_text).map(contrast));
}
