// The library that is tested: the module of the prefix that AEADKIT_PREFIX names, under ../aeadkit.mjs.
import assert from "node:assert/strict";
import { readFileSync } from "node:fs";
import { load } from "../aeadkit.mjs";

assert(process.env.AEADKIT_PREFIX, "AEADKIT_PREFIX names the prefix that the package is laid out in");
export const wasm = readFileSync(`${process.env.AEADKIT_PREFIX}/share/aeadkit/javascript/aeadkit.wasm`);
export const aeadkit = await load(wasm);

export const hex = (digits) => Uint8Array.from(Buffer.from(digits, "hex"));
export const joined = (arrays) => Uint8Array.from(Buffer.concat(arrays));

// Cuts an array into pieces of a size, with an empty piece before each.
export const pieces = (array, size) =>
    Array.from({ length: Math.ceil(array.length / size) }, (_, i) => [new Uint8Array(0), array.subarray(size * i, size * (i + 1))])
        .flat();

// Changes one bit of a copy.
export const changed = (array, place) => array.map((byte, i) => (i === place ? byte ^ 1 : byte));

// The records of a vector file, as docs/VECTOR-FILES.md has them: those of aead have a nonce, and those of key wrap have none.
export function records(file) {
    const found = [];
    let source;
    for (const line of readFileSync(file, "utf8").split(/ *\r?\n/)) {
        const [, name, value] = /^(\w+) *= *(.*)$/.exec(line) ?? [];
        if (line.startsWith("#")) {
            source = line.slice(2);
        } else if (name === "suite") {
            found.push({ source, suite: value, number: found.length + 1 });
        } else if (name === "cuts") {
            found.at(-1).cuts = value.split(",").map(Number);
        } else if (name && name !== "format") {
            found.at(-1)[name] = hex(value);
        }
    }
    return found;
}
