// In a browser the module is fetched from beside this file. Bundlers know `new URL(.., import.meta.url)` and copy the module too.
import { load as loadModule } from "./aeadkit.mjs";

export * from "./aeadkit.mjs";

async function fetched(url) {
    const response = await fetch(url);
    if (!response.ok) {
        throw new Error(`${url}: ${response.status} ${response.statusText}`);
    }
    return response.arrayBuffer();
}

export async function load(module) {
    return loadModule(module ?? await fetched(new URL("./aeadkit.wasm", import.meta.url)));
}
