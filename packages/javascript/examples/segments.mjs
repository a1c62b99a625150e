// Seals or opens a text of any size in segments, from pipe to pipe: node segments.mjs seal|open KEYFILE LABEL < IN > OUT
//
// docs/SEGMENTS.md is the format, which the examples in C, Rust and Python have too. KEYFILE holds a wrapping key of 32 random bytes.
// Opening writes a segment as soon as it is authentic. If a later one is refused, the status is 1: throw OUT away.
import assert from "node:assert/strict";
import { readFile } from "node:fs/promises";
import { pipeline } from "node:stream/promises";
import { fileURLToPath } from "node:url";
import { load, Suite } from "aeadkit";

const SUITE = Suite.ChaCha20Poly1305;
const MAGIC = Buffer.from("SEG1");
const HEAD_BYTES = 48;
const LONGEST = 2 ** 20; // the most bytes of text in a segment
const TAG_BYTES = 16;

const aeadkit = await load();

// Returns a function that takes the next bytes of some chunks: as many as it is told, or fewer at the end.
function takerOf(chunks) {
    const iterator = chunks[Symbol.asyncIterator]();
    let held = Buffer.alloc(0);
    return async (length) => {
        const parts = [held];
        for (let had = held.length; had < length;) {
            const { done, value } = await iterator.next();
            if (done) {
                break;
            }
            parts.push(value);
            had += value.length;
        }
        const all = Buffer.concat(parts);
        held = all.subarray(length);
        return all.subarray(0, length);
    };
}

// Each segment with its nonce. An empty source has one segment, which is empty too.
async function* segments(take, size) {
    let [segment, isLast] = [await take(size), false];
    for (let number = 0n; !isLast; number++) {
        const following = await take(size);
        isLast = following.length === 0;
        const nonce = Buffer.alloc(12);
        nonce.writeBigUInt64BE(number, 3);
        nonce[11] = Number(isLast);
        yield [nonce, segment];
        segment = following;
    }
}

// Yields the sealed text of a source of chunks. The data key is drawn for this text alone.
export async function* seal(wrappingKey, label, source, dataKey = crypto.getRandomValues(new Uint8Array(32)), size = LONGEST) {
    const length = Buffer.alloc(4);
    length.writeUInt32BE(size);
    const head = Buffer.concat([MAGIC, length, aeadkit.wrap(wrappingKey, dataKey)]);
    yield head;
    const key = aeadkit.key(SUITE, dataKey);
    const aad = Buffer.concat([head, label]);
    for await (const [nonce, text] of segments(takerOf(source), size)) {
        yield key.seal(nonce, text, { aad });
    }
}

// Yields the text of a source of chunks of sealed text, and throws if it is not authentic.
export async function* open(wrappingKey, label, source) {
    const take = takerOf(source);
    const head = await take(HEAD_BYTES);
    const size = head.length === HEAD_BYTES && head.subarray(0, 4).equals(MAGIC) ? head.readUInt32BE(4) : 0;
    if (size === 0 || size > LONGEST) {
        throw new Error("not a text in segments");
    }
    const key = aeadkit.key(SUITE, aeadkit.unwrap(wrappingKey, head.subarray(8)));
    const aad = Buffer.concat([head, label]);
    for await (const [nonce, sealed] of segments(take, size + TAG_BYTES)) {
        yield key.open(nonce, sealed, { aad });
    }
}

if (process.argv[1] === fileURLToPath(import.meta.url)) {
    const [word, keyFile, label] = process.argv.slice(2);
    try {
        const call = label === undefined ? undefined : { seal, open }[word];
        assert(call, "usage: segments.mjs seal|open KEYFILE LABEL < IN > OUT");
        const wrappingKey = await readFile(keyFile);
        assert(wrappingKey.length === 32, "KEYFILE is not 32 bytes long");
        assert(Buffer.byteLength(label) <= 200, "LABEL is longer than 200 bytes");
        await pipeline(process.stdin, (source) => call(wrappingKey, Buffer.from(label), source), process.stdout);
    } catch (error) {
        console.error(`segments.mjs: ${error.message}`);
        process.exitCode = 1;
    }
}
