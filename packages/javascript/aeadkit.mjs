// Authenticated encryption (RFC 8439, SP 800-38D, RFC 8452) and AES key wrap (RFC 3394, RFC 5649), by the module aeadkit.wasm.
// The manual is aeadkit.d.mts. Never use a nonce twice under one key: no call notices it.

const MAJOR_VERSION = 3;
const MEMORY_LIMIT = 2 ** 32;
const PAGE_BYTES = 65536;
const TAG_BYTES = 16;
const WRAP_BYTES = 8;
const STRUCT_BYTES = { key: 808, sealer: 144, opener: 192, siv: 192 };

/** The suites, by the names that the program `aeadkit` takes too. */
export const Suite = Object.freeze({
    ChaCha20Poly1305: "chacha20-poly1305",
    Aes128Gcm: "aes-128-gcm",
    Aes192Gcm: "aes-192-gcm",
    Aes256Gcm: "aes-256-gcm",
    Aes128GcmSiv: "aes-128-gcm-siv",
    Aes256GcmSiv: "aes-256-gcm-siv",
});

/** Why a call failed: each fault is a class that extends this one. */
export class Refused extends Error {}

const fault = (name, message) => ({
    [name]: class extends Refused {
        static { this.prototype.name = name; }

        constructor(said = message) {
            super(said);
        }
    },
})[name];

export const KeyLength = fault("KeyLength",
    "the key is not as long as the suite requires, or for key wrap not 16, 24 or 32 bytes long");
export const NonceLength = fault("NonceLength", "the nonce is not 12 bytes long");
export const TextTooLong = fault("TextTooLong", "the text is too long");
export const AadTooLong = fault("AadTooLong", "the associated data is too long");
export const TooShort = fault("TooShort", "the sealed bytes are shorter than a tag of 16 bytes");
export const TagMismatch = fault("TagMismatch", "authentication failed");
export const TagLength = fault("TagLength", "the tag is not 16 bytes long");
export const WrapLength = fault("WrapLength", "the length is not a multiple of 8, or too short");
export const WrapIntegrity = fault("WrapIntegrity", "not a valid wrapping under this key");
export const SourceChanged = fault("SourceChanged", "the second pass differs from the first");
export const UnknownSuite = fault("UnknownSuite", "there is no suite of this name");
export const NotBegun = fault("NotBegun", "not begun, finished or wiped");

// The faults by the statuses of the library. TagLength has none, since the library takes a pointer to 16 bytes.
const FAULTS = {
    1: KeyLength, 2: NonceLength, 3: TextTooLong, 4: AadTooLong, 5: TooShort, 6: TagMismatch, 7: WrapLength, 8: WrapIntegrity,
    13: SourceChanged, 14: UnknownSuite, 15: NotBegun,
};

// What UnknownSuite says where there is such a suite.
const OTHER_CALL = {
    aeadkit_sealer_init_with: "AES-GCM-SIV reads a text twice: use sivSealer",
    aeadkit_siv_init_with: "only AES-GCM-SIV reads a text twice: use sealer",
};

// Whether data is a Uint8Array, also one of another realm, as in a frame or under jest.
const isBytes = (data) => ArrayBuffer.isView(data) && data[Symbol.toStringTag] === "Uint8Array";

function bytes(data) {
    if (!isBytes(data)) {
        throw new TypeError("a Uint8Array is required");
    }
    return data;
}

function tagBytes(tag) {
    if (bytes(tag).length !== TAG_BYTES) {
        throw new TagLength();
    }
    return tag;
}

// The associated data that the options name. The bytes themselves in the place of options, or a misspelled name, are refused.
function aadOf(options) {
    if (options === undefined) {
        return new Uint8Array(0);
    }
    const aad = options?.aad;
    if (!isBytes(aad)) {
        throw new TypeError("associated data is given by name, as { aad: bytes }");
    }
    return aad;
}

// The next multiple of 16.
const aligned = (place) => 16 * Math.ceil(place / 16);

// The arguments of a call that are bytes. The call takes their address, and behind it their length unless it knows the length.
// Bytes of `from` are copied into the module's memory before the call, and out of it to `to` afterwards.
const input = (from) => ({ from, isSized: true });
const output = (to) => ({ to, isSized: true });
const inPlace = (from, to = from) => ({ from, to, isSized: true });
const fixedInput = (from) => ({ from, isSized: false });
const fixedOutput = (to) => ({ to, isSized: false });
const struct = (held) => ({ from: held, to: held, isSized: false });

// An instance of the module. The arguments of a call stand in its memory behind what the module itself uses, and are replaced by
// zeros after the call.
class Library {
    #module;
    #exports;
    #start;

    constructor(module) {
        this.#module = module;
        this.#exports = new WebAssembly.Instance(module).exports;
        const said = (name) => Number(this.#exports[name]?.());
        if (Math.floor(said("aeadkit_version") / 10000) !== MAJOR_VERSION
            || Object.entries(STRUCT_BYTES).some(([kind, size]) => said(`aeadkit_${kind}_size`) !== size)) {
            throw new TypeError(`not the aeadkit.wasm of version ${MAJOR_VERSION}`);
        }
        this.#start = aligned(Number(this.#exports.__heap_base.value));
    }

    // Calls an export with numbers and bytes, and returns what it returns.
    invoke(name, ...words) {
        const exports = this.#exports ?? new WebAssembly.Instance(this.#module).exports;
        const { memory } = exports;
        const given = [];
        const placed = [];
        let end = this.#start;
        for (const word of words) {
            if (typeof word === "number") {
                given.push(word);
                continue;
            }
            const { from, to, isSized } = word;
            const { length } = from ?? to;
            given.push(BigInt(end));
            if (isSized) {
                given.push(BigInt(length));
            }
            placed.push({ from, to, place: end, length });
            end = aligned(end + length);
        }
        if (end > MEMORY_LIMIT) {
            throw new RangeError("the bytes of a call have to fit in 4 GiB together");
        }
        if (end > memory.buffer.byteLength) {
            memory.grow(Math.ceil((end - memory.buffer.byteLength) / PAGE_BYTES));
        }
        const stored = new Uint8Array(memory.buffer);
        // A call that does not return, as when the host's stack is full, leaves the module in the middle of the call, and the next
        // call begins with a new instance. No state is lost: each is in a struct outside the module's memory.
        this.#exports = undefined;
        try {
            for (const { from, place } of placed) {
                if (from) {
                    stored.set(from, place);
                }
            }
            const returned = exports[name](...given);
            for (const { to, place, length } of placed) {
                to?.set(stored.subarray(place, place + length));
            }
            this.#exports = exports;
            return returned;
        } finally {
            stored.fill(0, this.#start, end);
        }
    }

    // Calls an export that returns a status, and throws the fault of any status but 0.
    call(name, ...words) {
        const status = this.invoke(name, ...words);
        if (status !== 0) {
            const said = FAULTS[status] === UnknownSuite ? OTHER_CALL[name] : undefined;
            throw status in FAULTS ? new FAULTS[status](said) : new Error(`the library returned the unknown status ${status}`);
        }
    }

    // Calls an export whose last argument is an output of some length, and returns the output.
    made(length, name, ...words) {
        const made = new Uint8Array(Math.max(0, length));
        this.call(name, ...words, output(made));
        return made;
    }
}

// A struct of the library, by the calls of the library that began it.
class Struct {
    #library;
    #held;

    constructor(library, kind, init, ...words) {
        this.#library = library;
        this.#held = new Uint8Array(STRUCT_BYTES[kind]);
        this.call(init, ...words);
    }

    call(name, ...words) {
        this.#library.call(name, struct(this.#held), ...words);
    }

    // Calls with a piece, and returns what the piece becomes.
    changed(name, piece) {
        const made = new Uint8Array(bytes(piece).length);
        this.call(name, inPlace(piece, made));
        return made;
    }

    // Calls for a tag.
    tag(name) {
        const tag = new Uint8Array(TAG_BYTES);
        this.call(name, fixedOutput(tag));
        return tag;
    }

    // The struct as an argument of a call that only reads it.
    get constant() {
        return fixedInput(this.#held);
    }

    // Leaves zeros, as the library's own _wipe does: each call but an init then returns NOT_BEGUN.
    wipe() {
        this.#held.fill(0);
    }
}

// A stream by a state in pieces: each piece that is written becomes what `update` returns for it. A call that throws errors the
// stream. A stream that fails or is aborted never comes to its end, and wipes the state.
const streamOf = (state, end) => new TransformStream({
    transform(piece, controller) {
        try {
            controller.enqueue(state.update(piece));
        } catch (error) {
            state.wipe();
            throw error;
        }
    },
    flush: end,
    cancel() {
        state.wipe();
    },
});

/** Compiles a module, given as its bytes or as a WebAssembly.Module, and returns the calls of the library. */
export async function load(module) {
    return new Aeadkit(new Library(module instanceof WebAssembly.Module ? module : await WebAssembly.compile(module)));
}

/** The library, by `load`. */
export class Aeadkit {
    #library;

    constructor(library) {
        this.#library = library;
    }

    get version() {
        const number = this.#library.invoke("aeadkit_version");
        return [Math.floor(number / 10000), Math.floor(number / 100) % 100, number % 100].join(".");
    }

    key(suite, key) {
        return new Key(this.#library, suite, key);
    }

    wrap(key, text) {
        return this.#library.made(bytes(text).length + WRAP_BYTES, "aeadkit_wrap", input(bytes(key)), input(text));
    }

    unwrap(key, wrapped) {
        return this.#library.made(bytes(wrapped).length - WRAP_BYTES, "aeadkit_unwrap", input(bytes(key)), input(wrapped));
    }

    wrapPadded(key, text) {
        const length = 8 * Math.ceil(bytes(text).length / 8) + WRAP_BYTES;
        return this.#library.made(length, "aeadkit_wrap_padded", input(bytes(key)), input(text));
    }

    unwrapPadded(key, wrapped) {
        const padded = new Uint8Array(Math.max(0, bytes(wrapped).length - WRAP_BYTES));
        const length = new Uint8Array(8);
        this.#library.call("aeadkit_unwrap_padded", input(bytes(key)), input(wrapped), output(padded), fixedOutput(length));
        return padded.slice(0, Number(new DataView(length.buffer).getBigUint64(0, true)));
    }
}

/** A suite and a key, whose key schedule is computed once. */
export class Key {
    #library;
    #struct;
    #suite;

    constructor(library, suite, key) {
        if (!(library instanceof Library)) {
            throw new TypeError("a Key comes from a loaded library: (await load()).key(suite, bytes)");
        }
        // The library numbers the suites from 1, and refuses 0.
        const number = Object.values(Suite).indexOf(suite) + 1;
        this.#library = library;
        this.#suite = suite;
        this.#struct = new Struct(library, "key", "aeadkit_key_init", number, input(bytes(key)));
    }

    get suite() {
        return this.#suite;
    }

    // Text and ciphertext have one place in the module's memory.
    seal(nonce, text, options) {
        const sealed = new Uint8Array(bytes(text).length + TAG_BYTES);
        const [body, tag] = [inPlace(text, sealed.subarray(0, -TAG_BYTES)), fixedOutput(sealed.subarray(-TAG_BYTES))];
        this.#whole("aeadkit_seal_in_place_with", nonce, body, options, tag);
        return sealed;
    }

    open(nonce, sealed, options) {
        const text = new Uint8Array(Math.max(0, bytes(sealed).length - TAG_BYTES));
        if (sealed.length < TAG_BYTES) { // which only the call with an output can be told
            this.#whole("aeadkit_open_with", nonce, input(sealed), options, output(text));
        }
        const [body, tag] = [inPlace(sealed.subarray(0, -TAG_BYTES), text), fixedInput(sealed.subarray(-TAG_BYTES))];
        this.#whole("aeadkit_open_in_place_with", nonce, body, options, tag);
        return text;
    }

    sealInPlace(nonce, text, options) {
        const tag = new Uint8Array(TAG_BYTES);
        this.#whole("aeadkit_seal_in_place_with", nonce, inPlace(bytes(text)), options, fixedOutput(tag));
        return tag;
    }

    openInPlace(nonce, ciphertext, tag, options) {
        this.#whole("aeadkit_open_in_place_with", nonce, inPlace(bytes(ciphertext)), options, fixedInput(tagBytes(tag)));
    }

    sealer(nonce, options) {
        return new Sealer(this.#begun("sealer", nonce, options));
    }

    opener(nonce, tag, options) {
        return new Opener(this.#begun("opener", nonce, options, fixedInput(tagBytes(tag))));
    }

    sivSealer(nonce, options) {
        return new SivSealer(this.#begun("siv", nonce, options));
    }

    wipe() {
        this.#struct.wipe();
    }

    #whole(name, nonce, body, options, last) {
        this.#library.call(name, this.#struct.constant, input(bytes(nonce)), body, input(aadOf(options)), last);
    }

    // The struct of a state in pieces.
    #begun(kind, nonce, options, ...more) {
        const words = [this.#struct.constant, input(bytes(nonce)), input(aadOf(options)), ...more];
        return new Struct(this.#library, kind, `aeadkit_${kind}_init_with`, ...words);
    }
}

/** A sealing in pieces, under ChaCha20-Poly1305 or AES-GCM: `update` for each piece of the text, then `finish`. */
export class Sealer {
    #struct;

    constructor(struct) {
        this.#struct = struct;
    }

    update(piece) {
        return this.#struct.changed("aeadkit_sealer_update", piece);
    }

    finish() {
        return this.#struct.tag("aeadkit_sealer_finish");
    }

    stream() {
        return streamOf(this, (controller) => controller.enqueue(this.finish()));
    }

    wipe() {
        this.#struct.wipe();
    }
}

/** An opening in pieces, in two passes: `check` for each piece, `beginSecond`, `update` for each piece again, `finish`. */
export class Opener {
    #struct;

    constructor(struct) {
        this.#struct = struct;
    }

    check(piece) {
        this.#struct.call("aeadkit_opener_check", input(bytes(piece)));
    }

    beginSecond() {
        this.#struct.call("aeadkit_opener_begin_second");
    }

    update(piece) {
        return this.#struct.changed("aeadkit_opener_update", piece);
    }

    finish() {
        this.#struct.call("aeadkit_opener_finish");
    }

    stream() {
        return streamOf(this, () => this.finish());
    }

    wipe() {
        this.#struct.wipe();
    }
}

/** A sealing in pieces under AES-GCM-SIV, in two readings: `absorb` each piece, `beginSecond`, `update` each again, `finish`. */
export class SivSealer {
    #struct;

    constructor(struct) {
        this.#struct = struct;
    }

    absorb(piece) {
        this.#struct.call("aeadkit_siv_absorb", input(bytes(piece)));
    }

    beginSecond() {
        return this.#struct.tag("aeadkit_siv_begin_second");
    }

    update(piece) {
        return this.#struct.changed("aeadkit_siv_update", piece);
    }

    finish() {
        this.#struct.call("aeadkit_siv_finish");
    }

    stream() {
        return streamOf(this, () => this.finish());
    }

    wipe() {
        this.#struct.wipe();
    }
}
