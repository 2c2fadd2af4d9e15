// What the readers of the page and of the calculator make of what people type. Prints a list as long as the rows.

const [top, reader, rows] = JSON.parse(process.argv[2]);

export async function page() {
    const { typedSerial, typedDenomination, typedIssue, typedMonth } = await import(`${top}/teller/typed.js`);
    const readers = { serial: typedSerial, denomination: typedDenomination, issue: typedIssue, month: typedMonth };
    return rows.map(([kind, text]) => readers[kind](text)).map(({ value, why }) => String(value ?? why));
}

export async function calculator() {
    const [loose, spelling] = await Promise.all(["loose", "spelling"].map((name) => import(`${top}/calculator/${name}.js`)));
    const months = (read) => (text) => ((month) => (month === null ? null : spelling.monthText(month)))(read(text));
    const readers = { serial: loose.looseSerial, denomination: loose.looseDenom, issue: months(loose.looseIssue), month: months(loose.looseMonth) };
    return rows.map(([kind, text]) => readers[kind](text)).map((value) => (value === null ? null : String(value)));
}

export async function lists() {
    const { serialsIn, readSerial } = await import(`${top}/teller/typed.js`);
    return rows.map((text) => serialsIn(text).map((one) => readSerial(one) ?? ""));
}

console.log(JSON.stringify(await { page, calculator, lists }[reader]()));
