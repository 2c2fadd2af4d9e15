// The two modules of the library, which the build puts into the page's script, so that they need no request and work from a file too.

import lowered from "../value/out/ee_value.wasm";
import proved from "../value/out/ee_value64.wasm";
import { load } from "../value/ee-value.js";

const BYTES = { 64: proved, 32: lowered };

async function loaded(bits) {
  return { bits, library: await load(BYTES[bits]) };
}

// The library by the module of that many bits; by the one of 32 bits if the browser can't run the other.
export async function libraryOf(bits) {
  try {
    return await loaded(bits);
  } catch (failure) {
    if (bits === 32) throw failure;
    return loaded(32);
  }
}
