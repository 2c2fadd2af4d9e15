// The records that this browser keeps of its payments, and deleting the records of earlier days.

import { byId } from "./elements.js";
import { onSubmit, readFields } from "./forms.js";
import { notice } from "./notices.js";
import { confirmed } from "./question.js";
import { laterOf, readDay } from "./spelling.js";
import { ENTER, RECORDS } from "./words.js";

// The day whose records are in use: the last one that this page works on, or paid on. Its tickets may still be printed as originals.
function dayInUse({ day, paid }) {
  return laterOf(day, paid?.day ?? null);
}

// Says how many records there are. The reports of a year are made in the next one, so the field has the end of the year before the last.
export async function followRecords(app) {
  const day = dayInUse(app.record);
  if (day !== null && byId("records-to").value === "") byId("records-to").value = `${Number(day.slice(0, 4)) - 2}-12-31`;
  byId("records-kept").textContent = RECORDS.kept(await app.receipts.count());
}

async function deleteUpTo(app, day) {
  const { count, first, last } = await app.receipts.upTo(day);
  if (count === 0) {
    notice("noted", RECORDS.none(day));
    return;
  }
  if (!(await confirmed(RECORDS.title(count), [RECORDS.span(first, last), RECORDS.lost, RECORDS.save], RECORDS.act(count)))) return;
  notice("done", RECORDS.deleted(await app.receipts.deleteUpTo(day)));
  await followRecords(app);
}

export function startRecords(app) {
  onSubmit(byId("delete-records"), async () => {
    const in_use = dayInUse(app.record);
    const earlier = (text) => {
      const day = readDay(text);
      return day !== null && (in_use === null || day < in_use) ? day : null;
    };
    const fields = readFields([byId("records-to"), earlier, in_use === null ? ENTER.day : ENTER.day_before(in_use)]);
    if (fields !== null) await deleteUpTo(app, ...fields);
  });
}
