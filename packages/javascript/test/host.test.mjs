// What depends on the host: memory, realms, the stack, and modules of another version.
import assert from "node:assert/strict";
import { createRequire } from "node:module";
import { test } from "node:test";
import { runInNewContext } from "node:vm";
import { Suite, TagMismatch, load } from "../aeadkit.mjs";
import { aeadkit, joined, wasm } from "./library.mjs";

const nonce = new Uint8Array(12);
const text = new Uint8Array(3000).fill(5);
const secret = new Uint8Array(32).fill(9);
const key = aeadkit.key(Suite.ChaCha20Poly1305, secret);
const sealed = key.seal(nonce, text);

test("the module imports nothing, and its memory has 32-bit addresses", async () => {
    assert.deepEqual(WebAssembly.Module.imports(await WebAssembly.compile(wasm)), []);
    assert((await load(await WebAssembly.compile(wasm))).version);
});

// Loads a library, and tells the instances of the module that it makes while `use` runs.
async function watched(use) {
    const { Instance } = WebAssembly;
    const instances = [];
    WebAssembly.Instance = class extends Instance {
        constructor(...words) {
            super(...words);
            instances.push(this.exports);
        }
    };
    try {
        use(await load(wasm), instances);
    } finally {
        WebAssembly.Instance = Instance;
    }
}

test("a call leaves zeros in the module's memory, whether it succeeds or is refused", () => watched((library, instances) => {
    const isClean = () => instances.every(({ memory, __heap_base: base }) =>
        new Uint8Array(memory.buffer, Number(base.value)).every((byte) => byte === 0));
    const own = library.key(Suite.Aes256Gcm, secret);
    assert(isClean());
    const itsSealed = own.seal(nonce, text);
    assert(isClean());
    assert.throws(() => own.open(nonce, text), TagMismatch);
    assert(isClean());
    const sealer = own.sealer(nonce);
    assert.deepEqual(joined([sealer.update(text), sealer.finish()]), itsSealed);
    assert(isClean());
    assert.equal(instances.length, 1);
}));

test("a CommonJS module gets the same classes by require", { skip: !process.features.require_module }, () => {
    assert.equal(createRequire(import.meta.url)("../node.mjs").TagMismatch, TagMismatch);
});

test("an array of another realm is a Uint8Array too", () => {
    const foreign = (bytes) => runInNewContext("Uint8Array.from(bytes)", { bytes });
    const other = aeadkit.key(Suite.ChaCha20Poly1305, foreign(secret));
    assert.deepEqual(other.seal(foreign(nonce), foreign(text), { aad: foreign([]) }), sealed);
    const inPlace = foreign(text);
    const tag = key.sealInPlace(nonce, inPlace);
    assert.deepEqual([...inPlace, ...tag], [...sealed]);
});

test("the memory grows for a long text, and a key and a state that were begun before go on", () => {
    const long = new Uint8Array(5 << 20).fill(1);
    const sealer = key.sealer(nonce);
    const first = sealer.update(text.subarray(0, 1000));
    const longSealed = key.seal(nonce, long);
    assert.deepEqual(key.open(nonce, longSealed), long);
    assert.deepEqual(joined([first, sealer.update(text.subarray(1000)), sealer.finish()]), sealed);
});

test("a length past 32 bits is refused, and changes nothing", () => {
    const past = new Uint8Array(2 ** 32);
    const isRefused = { name: "RangeError", message: /fit in 4 GiB/ };
    assert.throws(() => key.sealInPlace(nonce, past), isRefused);
    assert.throws(() => key.seal(nonce, past.subarray(16)), isRefused);
    assert.throws(() => key.seal(nonce, text, { aad: past }), isRefused);
    assert.throws(() => key.open(nonce, past), isRefused);
    const sealer = key.sealer(nonce);
    assert.throws(() => sealer.update(past), isRefused);
    assert.deepEqual(joined([sealer.update(text), sealer.finish()]), sealed);
});

test("a call that the host cuts off changes nothing, and the next one has a new instance", () => watched((library, instances) => {
    const own = library.key(Suite.ChaCha20Poly1305, secret);
    const sealer = own.sealer(nonce);
    let cuts = 0;
    // Calls where the stack is almost full, then with less and less of it in use, until a call returns.
    function deep(call) {
        try {
            return deep(call);
        } catch (error) {
            assert(error instanceof RangeError);
            cuts++;
            return call();
        }
    }
    const parts = Array.from({ length: 100 }, (_, i) => deep(() => sealer.update(text.subarray(30 * i, 30 * i + 30))));
    assert(cuts > 200);
    assert(instances.length > 1);
    assert.deepEqual(joined([...parts, sealer.finish()]), sealed);
    assert.deepEqual(own.open(nonce, sealed), text);
}));

test("a module of another version, with structs of another size, or another module is refused", async () => {
    // Replaces the body of a function that only returns a constant.
    const patched = (from, to) => {
        const [at, bytes] = [wasm.indexOf(Buffer.from(from)), Buffer.from(wasm)];
        assert(at > 0 && wasm.indexOf(Buffer.from(from), at + 1) === -1);
        bytes.set(to, at);
        return bytes;
    };
    const [i32, i64, end] = [0x41, 0x42, 0x0b];
    const version = wasm.indexOf(Buffer.from([i32, 0xb0, 0xea, 0x01, end])) > 0;
    assert(version, "the version of the module is 3.0.0");
    await assert.rejects(load(patched([i32, 0xb0, 0xea, 0x01, end], [i32, 0xc0, 0xb8, 0x02, end])), TypeError); // 40000
    await assert.rejects(load(patched([i64, 0xa8, 0x06, end], [i64, 0xb0, 0x06, end])), TypeError); // 816 for 808
    await assert.rejects(load(Uint8Array.of(0, 0x61, 0x73, 0x6d, 1, 0, 0, 0)), TypeError);
    await assert.rejects(load(Uint8Array.of(1, 2, 3)), WebAssembly.CompileError);
});
