// Sealing as a stream, and opening as the second pass.
import assert from "node:assert/strict";
import { test } from "node:test";
import { NotBegun, SourceChanged, Suite } from "../aeadkit.mjs";
import { aeadkit, changed, joined, pieces } from "./library.mjs";

const nonce = new Uint8Array(12);
const aad = Uint8Array.of(1, 2, 3);
const text = Uint8Array.from({ length: 1000 }, (_, i) => i);
const key = aeadkit.key(Suite.Aes128Gcm, new Uint8Array(16));
const siv = aeadkit.key(Suite.Aes128GcmSiv, new Uint8Array(16));
const sealed = key.seal(nonce, text, { aad });
const [ciphertext, tag] = [sealed.subarray(0, -16), sealed.subarray(-16)];

// A source of some parts, which fails where a part is an error.
const source = (parts) => ReadableStream.from((function* () {
    for (const part of parts) {
        if (part instanceof Error) {
            throw part;
        }
        yield part;
    }
})());

// What a stream makes of some parts until it ends or fails, and why it failed.
async function piped(parts, stream) {
    const made = [];
    const write = (part) => void made.push(part);
    const failure = await source(parts).pipeThrough(stream).pipeTo(new WritableStream({ write })).catch((error) => error);
    return { made: joined(made), failure };
}

function checked(bytes) {
    const opener = key.opener(nonce, tag, { aad });
    opener.check(bytes);
    opener.beginSecond();
    return opener;
}

test("a sealing is the one of the whole text, with the tag at the end", async () => {
    for (const size of [1, 15, 16, 17, 1000]) {
        const sealer = key.sealer(nonce, { aad });
        assert.deepEqual(await piped(pieces(text, size), sealer.stream()), { made: sealed, failure: undefined });
        assert.throws(() => sealer.finish(), NotBegun);
    }
    assert.deepEqual((await piped([], key.sealer(nonce).stream())).made, key.seal(nonce, new Uint8Array(0)));
});

test("an opening is a stream in its second pass alone", async () => {
    assert.deepEqual(await piped(pieces(ciphertext, 17), checked(ciphertext).stream()), { made: text, failure: undefined });
    const { made, failure } = await piped([ciphertext], key.opener(nonce, tag, { aad }).stream());
    assert(failure instanceof NotBegun && made.length === 0);
    assert((await piped([], key.opener(nonce, tag).stream())).failure instanceof NotBegun);
});

test("a sealing under AES-GCM-SIV is a stream in its second reading", async () => {
    const sealer = siv.sivSealer(nonce, { aad });
    sealer.absorb(text);
    const itsTag = sealer.beginSecond();
    const { made } = await piped(pieces(text, 16), sealer.stream());
    assert.deepEqual(joined([made, itsTag]), siv.seal(nonce, text, { aad }));
});

test("a second pass over other bytes errors the stream", async () => {
    for (const other of [changed(ciphertext, 999), ciphertext.subarray(1), joined([ciphertext, tag])]) {
        const opener = checked(ciphertext);
        assert((await piped([other], opener.stream())).failure instanceof SourceChanged);
        assert.throws(() => opener.finish(), NotBegun);
    }
});

test("a stream that fails or is aborted gives no tag, and its state is wiped", async () => {
    const fails = async (parts, isWanted) => {
        const sealer = key.sealer(nonce, { aad });
        const { made, failure } = await piped(parts, sealer.stream());
        assert(isWanted(failure));
        assert(made.length <= 500);
        assert.throws(() => sealer.finish(), NotBegun);
    };
    const error = new Error("the source failed");
    await fails([text.subarray(0, 500), error], (failure) => failure === error);
    await fails([text.subarray(0, 500), "not bytes"], (failure) => failure instanceof TypeError);
    const sealer = key.sealer(nonce);
    await sealer.stream().readable.cancel();
    assert.throws(() => sealer.finish(), NotBegun);
});
