// The examples, beside the package as npm installs it.
import assert from "node:assert/strict";
import { spawnSync } from "node:child_process";
import { cpSync, mkdirSync, mkdtempSync, readFileSync, rmSync, symlinkSync, writeFileSync } from "node:fs";
import { tmpdir } from "node:os";
import { join } from "node:path";
import { Readable } from "node:stream";
import { after, test } from "node:test";
import { fileURLToPath, pathToFileURL } from "node:url";
import { changed, hex, joined, pieces } from "./library.mjs";

const room = mkdtempSync(join(tmpdir(), "aeadkit-"));
after(() => rmSync(room, { recursive: true, force: true }));
mkdirSync(join(room, "node_modules"));
symlinkSync(`${process.env.AEADKIT_PREFIX}/share/aeadkit/javascript`, join(room, "node_modules/aeadkit"));
cpSync(fileURLToPath(new URL("../examples", import.meta.url)), room, { recursive: true });
const run = (words, input) => spawnSync(process.execPath, words, { cwd: room, input, maxBuffer: 2 ** 26 });

test("messages and blobs", () => {
    assert.equal(`${run(["messages.mjs"]).stdout}`, "first, second\nnot the first message\n");
    assert.equal(`${run(["blobs.mjs"]).stdout}`, "a text of any size\n");
});

test("segments: the sample opens, and is what its text becomes under its data key", async () => {
    const { open, seal } = await import(pathToFileURL(join(room, "segments.mjs")));
    const [wrappingKey, label] = ["a key of 32 bytes for the sample", "sample"].map((word) => Buffer.from(word));
    const sample = readFileSync(new URL("../../c/examples/sample.segments", import.meta.url));
    const text = "The parcel leaves at nine, and the letter at ten.\n";
    const dataKey = hex("bc16c5b8c40f39f27087475aa6c2e7c081432bae2d2eb4fbf7d8ee83ccb23344");
    const all = async (chunks) => Buffer.concat(await Readable.from(chunks).toArray());
    for (const size of [1, 7, 48, 1000]) {
        const cut = (data) => Readable.from(pieces(data, size));
        assert.equal(`${await all(open(wrappingKey, label, cut(sample)))}`, text);
        assert.deepEqual(await all(seal(wrappingKey, label, cut(Buffer.from(text)), dataKey, 16)), sample);
    }
});

test("segments: from pipe to pipe, and what is refused", () => {
    writeFileSync(join(room, "key"), new Uint8Array(32).fill(3));
    const does = (word, data, label = "label") => run(["segments.mjs", word, "key", label], data);
    const texts = [0, 1, 2 ** 20, 2 ** 20 + 1].map((length) => Buffer.from(Uint8Array.from({ length }, (_, i) => i)));
    const all = texts.map((text) => does("seal", text).stdout);
    texts.forEach((text, i) => assert.deepEqual(does("open", all[i]).stdout, text));
    const sealed = all[3];
    const first = 48 + 2 ** 20 + 16;
    const wrong = [sealed.subarray(0, first), sealed.subarray(0, -1), joined([sealed, sealed]), new Uint8Array(0)];
    wrong.push(joined([sealed.subarray(0, 48), sealed.subarray(first)]), ...[0, 5, 9, 99, first].map((at) => changed(sealed, at)));
    assert.match(`${does("seal", texts[1], "l".repeat(201)).stderr}`, /LABEL is longer than 200 bytes/);
    for (const { status, stdout, stderr } of [does("open", sealed, "other"), ...wrong.map((data) => does("open", data))]) {
        assert.deepEqual(stdout, texts[3].subarray(0, stdout.length));
        assert.deepEqual([status, stdout.length < texts[3].length, `${stderr}`.slice(0, 14)], [1, true, "segments.mjs: "]);
    }
});
