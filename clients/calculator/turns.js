// Long work in turns, between which the page shows how far it is.

import { byId } from "./elements.js";

const TURN_MILLISECONDS = 40;

const pause = () => new Promise((resolve) => setTimeout(resolve));

/** Shows how far the work is, from 0 to 1; null if that isn't known. */
function show(part) {
  const bar = byId("working");
  if (part === null) bar.removeAttribute("value");
  else bar.setAttribute("value", String(part));
}

/**
 * Does work that yields how far it is, under a bar. Returns its result, or undefined if `isStale` said that it isn't wanted any more.
 * @template T
 * @param {Generator<number, T>} work
 * @param {() => boolean} isStale
 * @returns {Promise<T | undefined>}
 */
export async function inTurns(work, isStale) {
  byId("working-box").hidden = false;
  try {
    for (let next = 0; ; ) {
      const step = work.next();
      if (step.done) return step.value;
      if (performance.now() < next) continue;
      show(step.value);
      await pause();
      if (isStale()) return undefined;
      next = performance.now() + TURN_MILLISECONDS;
    }
  } finally {
    byId("working-box").hidden = true;
  }
}

/** Does work in one turn, under a bar that doesn't say how far it is. */
export async function underBar(work) {
  show(null);
  byId("working-box").hidden = false;
  try {
    await pause();
    await pause();
    return work();
  } finally {
    byId("working-box").hidden = true;
  }
}

/** Does the same work at once. */
export function atOnce(work) {
  for (;;) {
    const step = work.next();
    if (step.done) return step.value;
  }
}
