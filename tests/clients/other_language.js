// A bank's file that says each word of words.js otherwise: in brackets. Functions, lists and tables of texts too. The name of a code isn't a word.

import { OURS } from "./words_first.js";
const wrap = (value) => {
    if (typeof value === "string") return `\u27e6${value}\u27e7`;
    if (typeof value === "function") return (...given) => wrap(value(...given));
    if (Array.isArray(value)) return value.map(wrap);
    if (value !== null && typeof value === "object") return Object.fromEntries(Object.entries(value).map(([name, one]) => [name, wrap(one)]));
    return value;
};
export const BANK = "First Bank of Testing";
export const BRANCHES = [{ name: "Main Street", from: 1, to: 9 }];
export const WORDS = { ...wrap(OURS), FORMATS: { ...wrap(OURS.FORMATS), language: "xx" } };
for (const kind of ["REFUSALS", "FAULTS", "UNSERVED"]) {
    for (const [code, [name]] of Object.entries(OURS[kind])) WORDS[kind][code][0] = name;
}
