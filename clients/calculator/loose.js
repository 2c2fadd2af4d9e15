// What people and spreadsheets write of a bond, as the tellers' page reads it too. A reader returns null if the text spells no value.

import { plain, readDenomination, readIssueMonth, readMonth, readSerial } from "../teller/typed.js";
import { monthOf } from "./spelling.js";

export { plain, readDenomination as looseDenom, readSerial as looseSerial };

/** Whether the text of a cell says that a bond has no serial number. */
export function isNoSerial(text) {
  return /^(?:|#[0-9]*|n\/?a|none|[-\u2013\u2014])$/i.test(text);
}

const counted = (read) => (text) => {
  const month = read(text);
  return month === null ? null : monthOf(month);
};

export const looseIssue = counted(readIssueMonth);
export const looseMonth = counted(readMonth);

export function looseSeries(text) {
  return /^(?:series )?EE$/i.test(text) ? "EE" : null;
}
