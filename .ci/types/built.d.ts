// What clients/calculator/build puts in the place of an import, and what Node.js gives.

declare module "*.wasm" {
    const bytes: Uint8Array;
    export default bytes;
}

declare module "*.csv" {
    const text: string;
    export default text;
}

declare module "node:fs/promises" {
    export function readFile(url: URL): Promise<Uint8Array>;
}
