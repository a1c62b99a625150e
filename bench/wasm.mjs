// Prints the speed of the WebAssembly module beside Node's own crypto, as a table of docs/SPEED.md: node bench/wasm.mjs MODULE.wasm..
// Sealing in place under a kept key, in turns in one process; the best of many rounds. Node's crypto has no AES-GCM-SIV. Each module
// gave the bytes of the first one, and that those of Node, before it was measured.
import { createCipheriv } from "node:crypto";
import { readFileSync } from "node:fs";
import { load } from "../packages/javascript/aeadkit.mjs";

const modules = await Promise.all(process.argv.slice(2).map((file) => load(readFileSync(file))));
if (modules.length === 0) throw new Error("give the file of a module, such as PREFIX/share/aeadkit/javascript/aeadkit.wasm");
const suites = ["chacha20-poly1305", "aes-128-gcm", "aes-256-gcm", "aes-128-gcm-siv", "aes-256-gcm-siv"];
const lengths = [16, 1024, 16384, 1048576];
const nonce = new Uint8Array(12).fill(3);

function byNode(suite, secret, text) {
    const cipher = createCipheriv(suite, secret, nonce, { authTagLength: 16 });
    return Buffer.concat([cipher.update(text), cipher.final(), cipher.getAuthTag()]);
}

function byModule(key, text) {
    const copy = Uint8Array.from(text), tag = key.sealInPlace(nonce, copy);
    return Buffer.concat([copy, tag]);
}

function measured(suite, length) {
    const secret = new Uint8Array(suite.includes("128") ? 16 : 32).fill(7), text = new Uint8Array(length).fill(9);
    const keys = modules.map((module) => module.key(suite, secret));
    const ways = keys.map((key) => () => key.sealInPlace(nonce, text));
    const sealings = keys.map((key) => byModule(key, text));
    if (!suite.endsWith("siv")) {
        ways.push(() => byNode(suite, secret, text));
        sealings.push(byNode(suite, secret, text));
    }
    if (sealings.some((sealing) => !sealing.equals(sealings[0]))) throw new Error(`${suite}, ${length} bytes: the sealings differ`);
    const best = ways.map(() => Infinity), times = Math.max(1, Math.round(60000 / (length + 200)));
    for (let round = 0; round < (length > 100000 ? 10 : 100); round++)
        ways.forEach((way, i) => {
            const start = process.hrtime.bigint();
            for (let n = 0; n < times; n++) way();
            best[i] = Math.min(best[i], Number(process.hrtime.bigint() - start) / times);
        });
    return best.map((time) => time.toFixed(0)).join(" / ");
}

console.log(`| ns | ${lengths.map((length) => (length < 1024 ? `${length} bytes` : `${length / 1024} KiB`)).join(" | ")} |`);
console.log(`|---|${"---|".repeat(lengths.length)}`);
for (const suite of suites) console.log(`| ${suite} | ${lengths.map((length) => measured(suite, length)).join(" | ")} |`);
