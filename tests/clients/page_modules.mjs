// Runs a function below over modules of the page, for which anything that they ask of a document is there; prints what it returns.

const [folder, name, given] = JSON.parse(process.argv[2]);
const anything = new Proxy(function () {}, { get: (_, name) => (name === Symbol.toPrimitive ? () => "" : anything), apply: () => anything });
globalThis.document = anything;
globalThis.location = { origin: "https://counter.test", hash: "" };
globalThis.addEventListener = () => {};
// Node 20 lacks it.
Map.groupBy ??= (rows, key) => rows.reduce((found, row) => found.set(key(row), [...(found.get(key(row)) ?? []), row]), new Map());
const modules = ["words", "answers", "sheet", "spelling", "doubts", "papers"];
const page = Object.assign({}, ...(await Promise.all(modules.map((name) => import(`${folder}/${name}.js`)))));
const said = ({ says, advises }) => [says, advises];

const functions = {
    sentences: (answers) => answers.map((answer) => said(page.inWords(answer))),
    answers: (texts) => texts.map(([status, text]) => page.readAnswer(status, text, () => null)).map(({ kind, why }) => [kind, why]),
    forbidden: (reasons) => reasons.map((why) => said(page.forbiddenInWords(why, "/redeem"))),
    /** What the page says of a first attempt without a certificate. */
    first_attempt() {
        const request = { path: "/redeem", fields: { serials: ["L7EE"], payee: 7 }, sent: 1 };
        return page.STEPS.pausing({ request, answer: { kind: "forbidden", why: "certificate" }, milliseconds: 500 });
    },
    entries: (texts) => texts.map(page.readEntry),
    amounts: (amounts) => amounts.map((cents) => page.amountInWords(BigInt(cents))),
    times() {
        const times = [[0, 5], [9, 30], [12, 0], [23, 59]].map(([hour, minute]) => page.timeInWords(new Date(2012, 1, 6, hour, minute).getTime()));
        return [...times, page.dayInWords("2012-12-31")];
    },
    splits: () => Array.from({ length: 1001 }, (_, count) => page.rowsOfSheets(count)),
    doubts: (all) => all.map((bonds) => page.doubtsOf(bonds.map(([serial, denom, issued]) => ({ serial, denom: String(denom), issued })))),
    sheets(text) {
        const whole = page.readSheet(text);
        const places = [...text].map((_, at) => at);
        const other = (at) => text.slice(0, at) + (text[at] === "9" ? "8" : "9") + text.slice(at + 1);
        const damaged = [
            ...places.map((at) => text.slice(0, at) + text.slice(at + 1)),
            ...places.map((at) => text.slice(0, at) + text[at] + text.slice(at)),
            ...places.map((at) => text.slice(0, at)),
            ...[...text.matchAll(/\.[0-9]{2}(?!%)/g)].map((found) => other(found.index + 1)),
        ];
        const rows = whole.rows.map((row) => [row.serial, row.note, Number(row.value)]);
        return [rows, Number(whole.totals.value), damaged.length, damaged.filter((one) => page.readSheet(one) !== null).length];
    },
};
console.log(JSON.stringify(functions[name](...given)));
