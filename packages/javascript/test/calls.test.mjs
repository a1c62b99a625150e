// Each call once with each fault that it can have, and what it leaves then.
import assert from "node:assert/strict";
import { test } from "node:test";
import {
    Key, KeyLength, NonceLength, NotBegun, Refused, SourceChanged, Suite, TagLength, TagMismatch, TooShort, UnknownSuite, WrapIntegrity,
    WrapLength,
} from "../aeadkit.mjs";
import { aeadkit, changed, joined, pieces } from "./library.mjs";

const bytes = (length) => Uint8Array.from({ length }, (_, i) => i);
const [nonce, aad, text] = [bytes(12), bytes(5), bytes(100)];
const key = aeadkit.key(Suite.ChaCha20Poly1305, bytes(32));
const siv = aeadkit.key(Suite.Aes256GcmSiv, bytes(32));
const sealed = key.seal(nonce, text, { aad });
const [ciphertext, tag] = [sealed.slice(0, -16), sealed.slice(-16)];

test("a fault has a class, a name and a message", () => {
    assert.throws(() => key.seal(bytes(11), text), (error) => error instanceof Refused && error instanceof Error
        && error.name === "NonceLength" && `${error}` === "NonceLength: the nonce is not 12 bytes long");
});

test("a fault names the call to take", () => {
    assert.throws(() => siv.sealer(nonce), { name: "UnknownSuite", message: /use sivSealer$/ });
    assert.throws(() => key.sivSealer(nonce), { name: "UnknownSuite", message: /use sealer$/ });
    assert.throws(() => aeadkit.key("aes-512-gcm", bytes(32)), { name: "UnknownSuite", message: "there is no suite of this name" });
    assert.throws(() => new Key(Suite.Aes128Gcm, bytes(16)), { name: "TypeError", message: /loaded library/ });
});

test("the library says its version", () => assert.match(aeadkit.version, /^3\.\d+\.\d+$/));

test("a key", () => {
    for (const suite of ["aes-512-gcm", "", "toString", 1, undefined]) {
        assert.throws(() => aeadkit.key(suite, bytes(32)), UnknownSuite);
    }
    assert.throws(() => aeadkit.key(Suite.Aes128Gcm, bytes(32)), KeyLength);
    assert.throws(() => aeadkit.key(Suite.Aes128Gcm, "0123456789abcdef"), TypeError);
    assert.equal(key.suite, "chacha20-poly1305");
});

test("seal and open", () => {
    assert.throws(() => key.seal(bytes(11), text), NonceLength);
    assert.throws(() => key.open(bytes(13), sealed, { aad }), NonceLength);
    assert.throws(() => key.open(nonce, bytes(15)), TooShort);
    assert.throws(() => key.open(bytes(13), bytes(15)), NonceLength);
    assert.throws(() => key.open(nonce, bytes(0)), TooShort);
    assert.throws(() => key.open(nonce, sealed), TagMismatch);
    assert.deepEqual(key.seal(nonce, bytes(0)), key.seal(nonce, bytes(0), { aad: bytes(0) }));
});

test("a call in place leaves its bytes if it is refused", () => {
    const kept = text.slice();
    assert.throws(() => key.sealInPlace(bytes(11), kept), NonceLength);
    assert.deepEqual(kept, text);
    const body = ciphertext.slice();
    assert.throws(() => key.openInPlace(bytes(11), body, tag, { aad }), NonceLength);
    assert.throws(() => key.openInPlace(nonce, body, tag.subarray(1), { aad }), TagLength);
    assert.throws(() => key.openInPlace(nonce, body, changed(tag, 3), { aad }), TagMismatch);
    assert.deepEqual(body, ciphertext);
    key.openInPlace(nonce, body, tag, { aad });
    assert.deepEqual(body, text);
});

test("a part of an array is sealed where it stands", () => {
    const all = new Uint8Array(120).fill(7);
    all.set(text, 10);
    assert.deepEqual(key.sealInPlace(nonce, all.subarray(10, 110), { aad }), tag);
    assert.deepEqual(all, joined([new Uint8Array(10).fill(7), ciphertext, new Uint8Array(10).fill(7)]));
});

test("arguments of the wrong kind", () => {
    for (const wrong of ["text", undefined, null, text.buffer, [1, 2], new Uint16Array(2), new Uint8ClampedArray(2)]) {
        assert.throws(() => key.seal(nonce, wrong), TypeError);
        assert.throws(() => key.seal(wrong, text), TypeError);
        assert.throws(() => key.seal(nonce, text, { aad: wrong }), TypeError);
        assert.throws(() => key.sealer(nonce).update(wrong), TypeError);
        assert.throws(() => aeadkit.wrap(wrong, text), TypeError);
    }
    for (const options of [aad, { add: aad }, {}, null, "aad"]) {
        assert.throws(() => key.seal(nonce, text, options), TypeError);
        assert.throws(() => key.sealer(nonce, options), TypeError);
    }
    let reads = 0;
    const once = { get aad() { return reads++ === 0 ? aad : "aad"; } };
    assert.deepEqual([key.seal(nonce, text, once), reads], [sealed, 1]);
    assert.deepEqual(key.seal(Buffer.from(nonce), Buffer.from(text), { aad: Buffer.from(aad) }), sealed);
});

test("a sealing in pieces", () => {
    assert.throws(() => siv.sealer(nonce), UnknownSuite);
    assert.throws(() => key.sealer(bytes(11)), NonceLength);
    const sealer = key.sealer(nonce, { aad });
    const parts = pieces(text, 17).map((piece) => sealer.update(piece));
    assert.deepEqual(joined([...parts, sealer.finish()]), sealed);
    assert.throws(() => sealer.update(text), NotBegun);
    assert.throws(() => sealer.finish(), NotBegun);
});

test("an opening in pieces", () => {
    assert.throws(() => key.opener(bytes(11), tag), NonceLength);
    assert.throws(() => key.opener(nonce, sealed), TagLength);
    const opener = key.opener(nonce, tag, { aad });
    assert.throws(() => opener.update(ciphertext), NotBegun);
    assert.throws(() => opener.finish(), NotBegun);
    opener.check(ciphertext);
    opener.beginSecond();
    assert.throws(() => opener.check(ciphertext), NotBegun);
    assert.throws(() => opener.beginSecond(), NotBegun);
    assert.deepEqual(opener.update(ciphertext), text);
    assert.throws(() => opener.update(bytes(1)), SourceChanged);
    opener.finish();
    assert.throws(() => opener.finish(), NotBegun);
});

test("an opening that fails ends", () => {
    const mismatched = key.opener(nonce, changed(tag, 15), { aad });
    mismatched.check(ciphertext);
    assert.throws(() => mismatched.beginSecond(), TagMismatch);
    assert.throws(() => mismatched.beginSecond(), NotBegun);
    for (const second of [changed(ciphertext, 99), ciphertext.subarray(1)]) {
        const opener = key.opener(nonce, tag, { aad });
        opener.check(ciphertext);
        opener.beginSecond();
        opener.update(second);
        assert.throws(() => opener.finish(), SourceChanged);
        assert.throws(() => opener.finish(), NotBegun);
    }
});

test("a sealing under AES-GCM-SIV in pieces", () => {
    assert.throws(() => key.sivSealer(nonce), UnknownSuite);
    assert.throws(() => siv.sivSealer(bytes(11)), NonceLength);
    const sealer = siv.sivSealer(nonce, { aad });
    assert.throws(() => sealer.update(text), NotBegun);
    assert.throws(() => sealer.finish(), NotBegun);
    sealer.absorb(text);
    const itsTag = sealer.beginSecond();
    assert.throws(() => sealer.absorb(text), NotBegun);
    assert.throws(() => sealer.beginSecond(), NotBegun);
    assert.deepEqual(joined([sealer.update(text), itsTag]), siv.seal(nonce, text, { aad }));
    assert.throws(() => sealer.update(bytes(1)), SourceChanged);
    sealer.finish();
    assert.throws(() => sealer.finish(), NotBegun);
    const other = siv.sivSealer(nonce, { aad });
    other.absorb(text);
    other.beginSecond();
    other.update(changed(text, 50));
    assert.throws(() => other.finish(), SourceChanged);
    assert.throws(() => other.finish(), NotBegun);
});

test("key wrap", () => {
    for (const call of ["wrap", "unwrap", "wrapPadded", "unwrapPadded"]) {
        assert.throws(() => aeadkit[call](bytes(20), bytes(24)), KeyLength);
    }
    const lengths = { wrap: [0, 8, 23], unwrap: [0, 16, 25], wrapPadded: [0], unwrapPadded: [0, 8, 23] };
    for (const [call, all] of Object.entries(lengths)) {
        all.forEach((length) => assert.throws(() => aeadkit[call](bytes(16), bytes(length)), WrapLength));
    }
    assert.throws(() => aeadkit.unwrap(bytes(16), bytes(24)), WrapIntegrity);
    assert.throws(() => aeadkit.unwrapPadded(bytes(16), bytes(16)), WrapIntegrity);
    for (const length of [1, 7, 8, 9, 16, 17]) {
        assert.deepEqual(aeadkit.unwrapPadded(bytes(32), aeadkit.wrapPadded(bytes(32), bytes(length))), bytes(length));
    }
});

test("what is wiped is not used again, and its states in pieces go on", () => {
    const own = aeadkit.key(Suite.Aes256Gcm, bytes(32));
    const whole = own.seal(nonce, text);
    const sealer = own.sealer(nonce);
    own.wipe();
    own.wipe();
    const calls = [
        () => own.seal(nonce, text), () => own.open(nonce, sealed), () => own.sealInPlace(nonce, bytes(3)),
        () => own.openInPlace(nonce, bytes(3), tag), () => own.sealer(nonce), () => own.opener(nonce, tag), () => own.sivSealer(nonce),
    ];
    calls.forEach((call) => assert.throws(call, NotBegun));
    assert.deepEqual(joined([sealer.update(text), sealer.finish()]), whole);
    const [wipedSealer, wipedOpener, wipedSiv] = [key.sealer(nonce), key.opener(nonce, tag), siv.sivSealer(nonce)];
    [wipedSealer, wipedOpener, wipedSiv].forEach((state) => state.wipe());
    assert.throws(() => wipedSealer.finish(), NotBegun);
    assert.throws(() => wipedOpener.check(text), NotBegun);
    assert.throws(() => wipedSiv.absorb(text), NotBegun);
});

test("a copy of a state has none of its bytes", () => {
    const sealer = key.sealer(nonce);
    sealer.update(text);
    const copy = Object.create(Object.getPrototypeOf(sealer), Object.getOwnPropertyDescriptors(sealer));
    assert.throws(() => copy.update(text), TypeError);
    assert.throws(() => copy.finish(), TypeError);
    assert.deepEqual(structuredClone(sealer), {});
    assert.equal(JSON.stringify(key), "{}");
});
