// Published vectors and edges by every call, and what is refused when one bit of them changes.
import assert from "node:assert/strict";
import { test } from "node:test";
import { Suite, TagMismatch, TooShort, WrapIntegrity, WrapLength } from "../aeadkit.mjs";
import { aeadkit, changed, joined, pieces, records } from "./library.mjs";

const all = ["published.vectors", "edges.vectors"].flatMap((file) =>
    records(new URL(`../../../docs/${file}`, import.meta.url)).map((record) => ({ ...record, file })));
const ofSuites = all.filter(({ nonce }) => nonce);
const ofWraps = all.filter(({ nonce }) => !nonce);
const isInvalid = ({ text }) => text === undefined;

test("the files have vectors of every suite and both wraps", () => {
    assert.deepEqual(new Set(ofSuites.map(({ suite }) => suite)), new Set(Object.values(Suite)));
    assert(ofWraps.some(({ suite }) => suite.endsWith("-wrap")) && ofWraps.some(({ suite }) => suite.endsWith("-wrap-pad")));
});

// Splits a text at its record's cuts, or into pieces of a size.
const cutAt = (text, cuts) => [0, ...cuts].map((cut, i) => text.subarray(cut, cuts[i] ?? text.length));
const splits = ({ text, cuts }) => [...[1, 15, 16, 17].map((size) => pieces(text, size)), ...cuts ? [cutAt(text, cuts)] : []];

function sealedInPieces(key, nonce, aad, split) {
    if (key.suite.endsWith("-siv")) {
        const sealer = key.sivSealer(nonce, { aad });
        split.forEach((piece) => sealer.absorb(piece));
        const tag = sealer.beginSecond();
        const ciphertext = split.map((piece) => sealer.update(piece));
        sealer.finish();
        return joined([...ciphertext, tag]);
    }
    const sealer = key.sealer(nonce, { aad });
    return joined([...split.map((piece) => sealer.update(piece)), sealer.finish()]);
}

function openedInPieces(key, nonce, aad, sealed, size) {
    const opener = key.opener(nonce, sealed.subarray(-16), { aad });
    const split = pieces(sealed.subarray(0, -16), size);
    split.forEach((piece) => opener.check(piece));
    opener.beginSecond();
    const text = joined(split.map((piece) => opener.update(piece)));
    opener.finish();
    return text;
}

function refuses(key, nonce, aad, sealed) {
    assert.throws(() => key.open(nonce, sealed, { aad }), sealed.length < 16 ? TooShort : TagMismatch);
    if (sealed.length >= 16) {
        const [ciphertext, tag] = [sealed.slice(0, -16), sealed.slice(-16)];
        assert.throws(() => key.openInPlace(nonce, ciphertext, tag, { aad }), TagMismatch);
        assert.deepEqual(ciphertext, sealed.slice(0, -16));
        assert.throws(() => openedInPieces(key, nonce, aad, sealed, 16), TagMismatch);
    }
}

function sealsAndOpens(record) {
    const { suite, nonce, aad, sealed, text } = record;
    const key = aeadkit.key(suite, record.key);
    if (isInvalid(record)) {
        refuses(key, nonce, aad, sealed);
        return;
    }
    assert.deepEqual(key.seal(nonce, text, { aad }), sealed);
    assert.deepEqual(key.open(nonce, sealed, { aad }), text);
    const inPlace = text.slice();
    const tag = key.sealInPlace(nonce, inPlace, { aad });
    assert.deepEqual(joined([inPlace, tag]), sealed);
    key.openInPlace(nonce, inPlace, tag, { aad });
    assert.deepEqual(inPlace, text);
    for (const split of splits(record)) {
        assert.deepEqual(sealedInPieces(key, nonce, aad, split), sealed);
    }
    for (const size of [1, 15, 16, 17]) {
        assert.deepEqual(openedInPieces(key, nonce, aad, sealed, size), text);
    }
    for (const place of [0, sealed.length - 16, sealed.length - 1]) {
        refuses(key, nonce, aad, changed(sealed, place));
    }
    refuses(key, nonce, joined([aad, new Uint8Array(1)]), sealed);
    refuses(key, changed(nonce, 11), aad, sealed);
    refuses(aeadkit.key(suite, changed(record.key, 0)), nonce, aad, sealed);
    refuses(key, nonce, aad, sealed.subarray(0, -1));
}

function wrapsAndUnwraps({ suite, key, sealed, text }) {
    const isPadded = suite.endsWith("-pad");
    const wrap = (bytes) => (isPadded ? aeadkit.wrapPadded(key, bytes) : aeadkit.wrap(key, bytes));
    const unwrap = (bytes) => (isPadded ? aeadkit.unwrapPadded(key, bytes) : aeadkit.unwrap(key, bytes));
    if (text === undefined) {
        const isLength = sealed.length % 8 === 0 && sealed.length >= (isPadded ? 16 : 24);
        assert.throws(() => unwrap(sealed), isLength ? WrapIntegrity : WrapLength);
        return;
    }
    assert.deepEqual(wrap(text), sealed);
    assert.deepEqual(unwrap(sealed), text);
    for (const place of [0, sealed.length - 1]) {
        assert.throws(() => unwrap(changed(sealed, place)), WrapIntegrity);
    }
    assert.throws(() => unwrap(sealed.subarray(1)), WrapLength);
}

for (const place of new Set(all.map(({ file, suite }) => `${file}, ${suite}`))) {
    test(place, () => {
        for (const record of all.filter(({ file, suite }) => `${file}, ${suite}` === place)) {
            try {
                (record.nonce ? sealsAndOpens : wrapsAndUnwraps)(record);
            } catch (error) {
                error.message = `record ${record.number}, ${record.source}: ${error.message}`;
                throw error;
            }
        }
    });
}
