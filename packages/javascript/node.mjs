// In Node the module is read from the package's folder.
import { readFile } from "node:fs/promises";
import { load as loadModule } from "./aeadkit.mjs";

export * from "./aeadkit.mjs";

export async function load(module) {
    return loadModule(module ?? await readFile(new URL("./aeadkit.wasm", import.meta.url)));
}
