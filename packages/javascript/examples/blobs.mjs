// Seals and opens Blobs of any size, such as the File of an <input>, by streams. A sealed Blob is its nonce, the ciphertext and the tag.
// The nonces are drawn, and so the suite is AES-256-GCM-SIV, which reads a Blob twice.
import { load, Suite } from "aeadkit";

export async function seal(key, blob) {
    const nonce = crypto.getRandomValues(new Uint8Array(12)); // for at most 2^32 Blobs under one key
    const sealer = key.sivSealer(nonce);
    await blob.stream().pipeTo(new WritableStream({ write: (piece) => sealer.absorb(piece) }));
    const tag = sealer.beginSecond();
    return new Blob([nonce, await new Response(blob.stream().pipeThrough(sealer.stream())).blob(), tag]);
}

export async function open(key, blob) {
    const bytesOf = async (part) => new Uint8Array(await part.arrayBuffer());
    const ciphertext = blob.slice(12, -16);
    const opener = key.opener(await bytesOf(blob.slice(0, 12)), await bytesOf(blob.slice(-16)));
    await ciphertext.stream().pipeTo(new WritableStream({ write: (piece) => opener.check(piece) }));
    opener.beginSecond(); // throws if authentication failed
    return new Response(ciphertext.stream().pipeThrough(opener.stream())).blob();
}

const aeadkit = await load();
const key = aeadkit.key(Suite.Aes256GcmSiv, crypto.getRandomValues(new Uint8Array(32)));
const sealed = await seal(key, new Blob(["a text of any size"]));
console.log(await (await open(key, sealed)).text());
