// The examples in a browser: a page takes the package from a server here, and posts what the examples print.
import assert from "node:assert/strict";
import { spawn, spawnSync } from "node:child_process";
import { once } from "node:events";
import { mkdtempSync, readFileSync, rmSync } from "node:fs";
import { createServer } from "node:http";
import { tmpdir } from "node:os";
import { join } from "node:path";
import { test } from "node:test";
import { wasm } from "./library.mjs";

const BROWSERS = ["chromium", "chromium-browser", "google-chrome"];
const browser = BROWSERS.find((name) => spawnSync(name, ["--version"]).status === 0);

const PAGE = `<!DOCTYPE html>
<meta charset="utf-8">
<script type="importmap">{ "imports": { "aeadkit": "./browser.mjs" } }</script>
<script type="module">
    const printed = [];
    console.log = (line) => printed.push(line);
    const say = () => fetch("/printed", { method: "POST", body: printed.join("\\n") });
    Promise.all([import("./examples/messages.mjs"), import("./examples/blobs.mjs")]).catch((error) => printed.push(error)).then(say);
</script>`;

function answered(url) {
    if (url === "/") {
        return ["text/html", PAGE];
    }
    if (url === "/aeadkit.wasm") {
        return ["application/wasm", wasm];
    }
    return ["text/javascript", readFileSync(new URL(`..${url}`, import.meta.url))];
}

test("the examples run in a browser", { skip: browser ? false : "no chromium", timeout: 120_000 }, async () => {
    const home = mkdtempSync(join(tmpdir(), "aeadkit-"));
    let running;
    const server = createServer();
    try {
        const printed = new Promise((resolve) => server.on("request", async (request, response) => {
            if (request.method === "POST") {
                resolve((await request.setEncoding("utf8").toArray()).join(""));
                response.end();
                return;
            }
            try {
                const [type, body] = answered(request.url);
                response.setHeader("Content-Type", type).end(body);
            } catch {
                response.writeHead(404).end();
            }
        }));
        await once(server.listen(0, "127.0.0.1"), "listening");
        const flags = ["--headless", "--no-sandbox", "--disable-gpu", `--user-data-dir=${home}`];
        running = spawn(browser, [...flags, `http://127.0.0.1:${server.address().port}/`], { stdio: "ignore" });
        const lines = new Set((await printed).split("\n"));
        assert.deepEqual(lines, new Set(["first, second", "not the first message", "a text of any size"]));
    } finally {
        if (running?.kill()) {
            await once(running, "exit");
        }
        server.close();
        server.closeAllConnections();
        rmSync(home, { recursive: true, force: true });
    }
});
