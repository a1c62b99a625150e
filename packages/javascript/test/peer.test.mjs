// Random messages beside Node's own crypto, for each suite and wrap that it has, from one seed.
import assert from "node:assert/strict";
import { createCipheriv, createHash, getCiphers } from "node:crypto";
import { test } from "node:test";
import { Suite } from "../aeadkit.mjs";
import { aeadkit, hex, joined } from "./library.mjs";

const ROUNDS = 40;
let drawn = 0;
const bytes = (length) => Uint8Array.from(createHash("shake128", { outputLength: length }).update(`a seed, ${drawn++}`).digest());
const number = (end) => new DataView(bytes(4).buffer).getUint32(0) % end;
const lengthOf = () => number(number(10) === 0 ? 20000 : 400);

for (const suite of Object.values(Suite)) {
    test(suite, { skip: getCiphers().includes(suite) ? false : "Node has no such cipher" }, () => {
        for (let round = 0; round < ROUNDS; round++) {
            const secret = bytes(suite.startsWith("aes") ? Number(suite.slice(4, 7)) / 8 : 32);
            const [nonce, text, aad] = [bytes(12), bytes(lengthOf()), bytes(lengthOf())];
            const cipher = createCipheriv(suite, secret, nonce, { authTagLength: 16 }).setAAD(aad);
            const sealed = joined([cipher.update(text), cipher.final(), cipher.getAuthTag()]);
            const key = aeadkit.key(suite, secret);
            assert.deepEqual(key.seal(nonce, text, { aad }), sealed);
            assert.deepEqual(key.open(nonce, sealed, { aad }), text);
        }
    });
}

for (const bits of [128, 192, 256]) {
    test(`key wrap by AES-${bits}`, () => {
        for (let round = 0; round < ROUNDS; round++) {
            const [key, text, padded] = [bytes(bits / 8), bytes(16 + 8 * number(20)), bytes(1 + number(200))];
            const wrapped = (cipher, iv, from) => joined([createCipheriv(cipher, key, hex(iv)).update(from)]);
            assert.deepEqual(aeadkit.wrap(key, text), wrapped(`id-aes${bits}-wrap`, "a6a6a6a6a6a6a6a6", text));
            assert.deepEqual(aeadkit.wrapPadded(key, padded), wrapped(`id-aes${bits}-wrap-pad`, "a65959a6", padded));
        }
    });
}
