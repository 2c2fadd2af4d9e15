// Remarks on bonds that don't look like paper bonds, as lines of a list.

import { doubtsOf } from "./plausible.js";
import { TEXTS } from "./texts.js";

const MOST_LINES = 20;

/** Returns what to compare with the paper of a bond, in a sentence for every doubt; an empty text without a doubt. */
export function remarkOn(bond) {
  return doubtsOf(bond).map((doubt) => TEXTS.doubts[doubt.name](doubt)).join(" ");
}

/** Returns how many bonds have a remark in a sentence, or an empty text, and a line for each of the first ones. `nameOf` names a bond. */
export function remarksOn(bonds, nameOf) {
  const found = bonds.filter((bond) => doubtsOf(bond).length > 0);
  const lines = found.slice(0, MOST_LINES).map((bond) => `${nameOf(bond)}: ${remarkOn(bond)}`);
  const rest = found.length > MOST_LINES ? [TEXTS.more_to_check(found.length - MOST_LINES)] : [];
  return { told: found.length === 0 ? "" : TEXTS.to_check(found.length), lines: [...lines, ...rest] };
}
