// Seals numbered messages. A message's number is its nonce, and the key is new in each run, so no nonce is used twice under one key.
import { load, Suite, TagMismatch } from "aeadkit";

const aeadkit = await load();
const key = aeadkit.key(Suite.ChaCha20Poly1305, crypto.getRandomValues(new Uint8Array(32)));
const channel = new TextEncoder().encode("channel 7");

function nonceOf(number) {
    const nonce = new Uint8Array(12);
    new DataView(nonce.buffer).setBigUint64(4, number);
    return nonce;
}

let sent = 0n;
const seal = (text) => key.seal(nonceOf(sent++), new TextEncoder().encode(text), { aad: channel });
const open = (number, sealed) => new TextDecoder().decode(key.open(nonceOf(number), sealed, { aad: channel }));

const messages = ["first", "second"].map(seal);
console.log(messages.map((sealed, i) => open(BigInt(i), sealed)).join(", "));
try {
    open(0n, messages[1]); // the receiver counts too, so a message that is repeated or moved does not open
} catch (error) {
    console.log(error instanceof TagMismatch ? "not the first message" : error);
}
