// Saves a text as a file, by the browser's own download.

import { element } from "./elements.js";

// For how long the file's address holds, in milliseconds: a browser may ask its user first.
const HOLDS = 600_000;

export function saveText(name, text) {
  const address = URL.createObjectURL(new Blob([text], { type: "text/csv" }));
  element("a", { href: address, download: name }).click();
  setTimeout(() => URL.revokeObjectURL(address), HOLDS);
}
