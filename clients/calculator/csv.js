// Splits bytes of CSV into records, as the crate `csv` does by default: the states are those of csv-core. A record is a list of fields, and a
// field is its text, or null if it isn't UTF-8.

const QUOTE = 34;
const LINE_FEED = 10;
const CARRIAGE_RETURN = 13;
const [START_RECORD, START_FIELD, IN_FIELD, IN_QUOTED, AFTER_QUOTE] = [0, 1, 2, 3, 4];
const TEXT = new TextDecoder("utf-8", { fatal: true, ignoreBOM: true });

function fieldText(bytes) {
  try {
    return TEXT.decode(bytes);
  } catch {
    return null;
  }
}

function afterMark(bytes) {
  return bytes[0] === 0xef && bytes[1] === 0xbb && bytes[2] === 0xbf ? bytes.subarray(3) : bytes;
}

/** Collects the fields of a record, and the records. */
class Collector {
  constructor(size) {
    this.records = [];
    this.fields = [];
    this.field = new Uint8Array(size);
    this.length = 0;
  }

  copy(byte) {
    this.field[this.length++] = byte;
  }

  endField() {
    this.fields.push(fieldText(this.field.subarray(0, this.length)));
    this.length = 0;
  }

  endRecord() {
    this.endField();
    this.records.push(this.fields);
    this.fields = [];
  }
}

// The state after a byte that isn't special for the quotes of its state.
function inField(collector, byte, delimiter) {
  if (byte === delimiter) {
    collector.endField();
    return START_FIELD;
  }
  if (byte === LINE_FEED || byte === CARRIAGE_RETURN) {
    collector.endRecord();
    return START_RECORD;
  }
  collector.copy(byte);
  return IN_FIELD;
}

function quoted(collector, byte) {
  if (byte === QUOTE) return AFTER_QUOTE;
  collector.copy(byte);
  return IN_QUOTED;
}

function afterQuote(collector, byte, delimiter) {
  if (byte !== QUOTE) return inField(collector, byte, delimiter);
  collector.copy(byte);
  return IN_QUOTED;
}

function step(collector, state, byte, delimiter) {
  if (state === IN_QUOTED) return quoted(collector, byte);
  if (state === AFTER_QUOTE) return afterQuote(collector, byte, delimiter);
  if (state === START_RECORD && (byte === LINE_FEED || byte === CARRIAGE_RETURN)) return START_RECORD;
  return state !== IN_FIELD && byte === QUOTE ? IN_QUOTED : inField(collector, byte, delimiter);
}

// The records of a text. A byte order mark before the first one is dropped, and empty lines are no records.
export function records(given, delimiter = 44) {
  const bytes = afterMark(given);
  const collector = new Collector(bytes.length);
  let state = START_RECORD;
  for (const byte of bytes) state = step(collector, state, byte, delimiter);
  if (state !== START_RECORD) collector.endRecord();
  return collector.records;
}
