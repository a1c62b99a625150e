/**
 * Authenticated encryption (ChaCha20-Poly1305, AES-GCM, AES-GCM-SIV) and AES key wrap, by a WebAssembly module of proved code.
 *
 * ```js
 * import { load, Suite } from "aeadkit";
 * const aeadkit = await load();
 * const key = aeadkit.key(Suite.ChaCha20Poly1305, crypto.getRandomValues(new Uint8Array(32)));
 * const sealed = key.seal(nonce, text, { aad: header });
 * const text = key.open(nonce, sealed, { aad: header });
 * ```
 *
 * **Nonces.** A nonce is 12 bytes long and must never be used twice under one key, whatever the texts are. No call makes nonces, and
 * no call notices a repeat. A counter is the number of the message, the highest byte first, and never set back. A sealing in
 * pieces has used its nonce once it gave ciphertext, also if it is then given up. Two sealings with one nonce under one key give away
 * the XOR of the two texts and enough to forge messages; under AES-GCM-SIV only whether the texts and the associated data were the
 * same.
 *
 * **Bytes.** Arguments are Uint8Arrays, a Buffer too, and results are new Uint8Arrays. A call takes a whole array: for a part of it
 * pass a `subarray`. The bytes of one call have to fit in 4 GiB together, where a text and its ciphertext count once, or it throws a
 * `RangeError`; in pieces a text may be as long as its suite allows. The memory of the module grows for a long text and does not
 * become smaller again.
 *
 * **Faults.** A call that throws has changed none of its arguments, and gives no part of a text. Each call names the faults that it
 * can have, in the order in which they are looked for. Besides, each throws a `TypeError` for an argument of the wrong kind.
 *
 * **Memory and timing.** A call leaves zeros where its arguments and results stood in the module's memory, but not on the module's
 * stack. Nothing is claimed about timing: the module looks its tables up by an instruction and not in memory, and an engine compiles it
 * in its own way.
 */

/**
 * The suites. Take ChaCha20-Poly1305 with a counter as nonce, which is stored before it is used; AES-256-GCM-SIV where a nonce may come
 * twice or nonces are drawn at random, at most 2^32 under one key; and AES-GCM where a standard demands it. A tag is 16 bytes long. A
 * suite may be given by its name, as `"aes-256-gcm"`.
 */
export const Suite: {
    /** A key of 32 bytes; texts of up to 2^38 - 64 bytes. */
    readonly ChaCha20Poly1305: "chacha20-poly1305";
    /** A key of 16 bytes; texts of up to 2^36 - 32 bytes. */
    readonly Aes128Gcm: "aes-128-gcm";
    /** A key of 24 bytes; texts of up to 2^36 - 32 bytes. */
    readonly Aes192Gcm: "aes-192-gcm";
    /** A key of 32 bytes; texts of up to 2^36 - 32 bytes. */
    readonly Aes256Gcm: "aes-256-gcm";
    /** A key of 16 bytes; texts of up to 2^36 bytes, which are read twice. */
    readonly Aes128GcmSiv: "aes-128-gcm-siv";
    /** A key of 32 bytes; texts of up to 2^36 bytes, which are read twice. */
    readonly Aes256GcmSiv: "aes-256-gcm-siv";
};
export type Suite = (typeof Suite)[keyof typeof Suite];

/** Why a call failed: each fault is a class that extends this one, and its `name` is the name of that class. */
export abstract class Refused extends Error {}
/** The key is not as long as the suite requires, or for key wrap not 16, 24 or 32 bytes long. */
export class KeyLength extends Refused { readonly name: "KeyLength"; }
/** The nonce is not 12 bytes long. */
export class NonceLength extends Refused { readonly name: "NonceLength"; }
/** The text is longer than the suite's limit, or for wrapping with padding longer than 2^32 - 1 bytes. */
export class TextTooLong extends Refused { readonly name: "TextTooLong"; }
/** The associated data is longer than the suite's limit. */
export class AadTooLong extends Refused { readonly name: "AadTooLong"; }
/** The sealed bytes are shorter than a tag of 16 bytes. */
export class TooShort extends Refused { readonly name: "TooShort"; }
/** Authentication failed: suite, key, nonce, associated data, ciphertext and tag do not belong together. */
export class TagMismatch extends Refused { readonly name: "TagMismatch"; }
/** The tag is not 16 bytes long. */
export class TagLength extends Refused { readonly name: "TagLength"; }
/** The length is not a multiple of 8, or too short: each call says which lengths it takes. */
export class WrapLength extends Refused { readonly name: "WrapLength"; }
/** Authentication failed: not a valid wrapping under this key. */
export class WrapIntegrity extends Refused { readonly name: "WrapIntegrity"; }
/** The second pass or reading is over other bytes than the first. */
export class SourceChanged extends Refused { readonly name: "SourceChanged"; }
/** There is no such suite, or the call does not take it. */
export class UnknownSuite extends Refused { readonly name: "UnknownSuite"; }
/** The key or the state is wiped or finished, or the state is in another pass than the call belongs to. */
export class NotBegun extends Refused { readonly name: "NotBegun"; }

/** The options of a call. */
export interface Options {
    /**
     * The associated data, which is authenticated, but neither encrypted nor stored: the opening needs the same bytes again. It is
     * empty in a call without options.
     */
    aad: Uint8Array;
}

/**
 * Compiles the module and returns the library. Without an argument the module is the file beside this package's code, read in Node
 * and fetched in a browser; otherwise it is given as the bytes of aeadkit.wasm or compiled.
 *
 * Throws a `TypeError` if the module is another one or of another version, and a `WebAssembly.CompileError` if the host cannot
 * compile it, as one without simd128.
 */
export function load(module?: ArrayBuffer | ArrayBufferView | WebAssembly.Module): Promise<Aeadkit>;

/** The library: keys, and key wrap. Each `load` makes one, with a memory of its own. */
export class Aeadkit {
    private constructor();

    /** The version of the module, such as `3.0.0`. */
    readonly version: string;

    /** Computes what depends on the key alone, once for many messages. Throws `UnknownSuite`, `KeyLength`. */
    key(suite: Suite, key: Uint8Array): Key;

    /**
     * Wraps a text, which should be a key or as random as a key: equal texts have equal wrappings (RFC 3394). The wrapping is 8 bytes
     * longer. The first key wraps the second: exchanged keys of one length wrap the wrong one without a fault. Throws `KeyLength`;
     * `WrapLength` unless the text's length is a multiple of 8 and at least 16.
     */
    wrap(key: Uint8Array, text: Uint8Array): Uint8Array;

    /**
     * Returns the text of what `wrap` returned. Throws `KeyLength`; `WrapLength` unless the wrapping's length is a multiple of 8 and at
     * least 24; `WrapIntegrity`.
     */
    unwrap(key: Uint8Array, wrapped: Uint8Array): Uint8Array;

    /**
     * Wraps a text of any length but 0, with padding (RFC 5649). The wrapping is as long as the text, rounded up to a multiple of 8,
     * plus 8. Throws `KeyLength`; `WrapLength` for an empty text; `TextTooLong`.
     */
    wrapPadded(key: Uint8Array, text: Uint8Array): Uint8Array;

    /**
     * Returns the text of what `wrapPadded` returned, without the padding. Throws `KeyLength`; `WrapLength` unless the wrapping's
     * length is a multiple of 8 and at least 16; `TextTooLong`; `WrapIntegrity`.
     */
    unwrapPadded(key: Uint8Array, wrapped: Uint8Array): Uint8Array;
}

/** A suite and a key, by `Aeadkit.key`. It holds the key until `wipe`, and cannot be cloned: a worker gets the bytes of the key. */
export class Key {
    private constructor();

    readonly suite: Suite;

    /**
     * Returns the ciphertext, which is as long as the text, followed by the tag of 16 bytes. Never use a nonce twice under one key.
     * Throws `NotBegun`, `NonceLength`, `AadTooLong`, `TextTooLong`.
     */
    seal(nonce: Uint8Array, text: Uint8Array, options?: Options): Uint8Array;

    /**
     * Returns the text of what `seal` returned, under the same nonce and associated data. Throws `NotBegun`, `NonceLength`,
     * `AadTooLong`, `TooShort`, `TextTooLong`, `TagMismatch`.
     */
    open(nonce: Uint8Array, sealed: Uint8Array, options?: Options): Uint8Array;

    /**
     * Seals a text where it stands: `text` becomes its ciphertext. Returns the tag of 16 bytes, without which it cannot be opened.
     * Never use a nonce twice under one key. Throws `NotBegun`, `NonceLength`, `AadTooLong`, `TextTooLong`.
     */
    sealInPlace(nonce: Uint8Array, text: Uint8Array, options?: Options): Uint8Array;

    /**
     * Opens a ciphertext where it stands: `ciphertext` becomes its text, and is as before if the call throws. Throws `TagLength`,
     * `NotBegun`, `NonceLength`, `AadTooLong`, `TextTooLong`, `TagMismatch`.
     */
    openInPlace(nonce: Uint8Array, ciphertext: Uint8Array, tag: Uint8Array, options?: Options): void;

    /**
     * Begins a sealing in pieces, under ChaCha20-Poly1305 or AES-GCM. Never use a nonce twice under one key. Throws `NotBegun`,
     * `UnknownSuite` (AES-GCM-SIV needs `sivSealer`), `NonceLength`, `AadTooLong`.
     */
    sealer(nonce: Uint8Array, options?: Options): Sealer;

    /**
     * Begins an opening in pieces, under any suite. The tag is the last 16 bytes of what `seal` returned. Throws `TagLength`,
     * `NotBegun`, `NonceLength`, `AadTooLong`.
     */
    opener(nonce: Uint8Array, tag: Uint8Array, options?: Options): Opener;

    /**
     * Begins a sealing in pieces under AES-GCM-SIV. Never use a nonce twice under one key. Throws `NotBegun`, `UnknownSuite` (the other
     * suites need `sealer`), `NonceLength`, `AadTooLong`.
     */
    sivSealer(nonce: Uint8Array, options?: Options): SivSealer;

    /** Leaves zeros in the key's memory. Its other calls then throw `NotBegun`; states in pieces that it began go on. */
    wipe(): void;
}

/**
 * A sealing in pieces: `update` for each piece of the text, then `finish`. The ciphertext of all pieces, followed by the tag, is what
 * `seal` returns for the whole text; how the text is cut makes no difference. It cannot be cloned, since two copies would seal two
 * texts under one nonce.
 */
export class Sealer {
    private constructor();

    /** Returns the ciphertext of the next piece, of the same length. Throws `NotBegun`; `TextTooLong`, and a shorter piece may follow. */
    update(piece: Uint8Array): Uint8Array;

    /** Ends the sealing and returns the tag. Throws `NotBegun`. */
    finish(): Uint8Array;

    /**
     * The sealing as a stream of Uint8Arrays: its output is the ciphertext, and at the end the tag, as `seal` returns them. A stream
     * that fails or is aborted gives no tag, and wipes the state (after an abort, if the host's TransformStream has `cancel`).
     */
    stream(): TransformStream<Uint8Array, Uint8Array>;

    /** Gives the sealing up, and leaves zeros in its memory, as `finish` does. */
    wipe(): void;
}

/**
 * An opening in pieces, in two passes over the ciphertext without its tag: `check` for each piece, then `beginSecond`; then `update`
 * for each piece again, then `finish`. The passes may be cut in different ways. No text comes before the whole first pass was
 * authenticated. It cannot be cloned.
 */
export class Opener {
    private constructor();

    /** Takes the next piece in the first pass. Throws `NotBegun`; `TextTooLong`, and a shorter piece may follow. */
    check(piece: Uint8Array): void;

    /** Ends the first pass and begins the second. Throws `NotBegun`; `TagMismatch`, which ends the opening. */
    beginSecond(): void;

    /**
     * Returns the text of the next piece in the second pass, which may be used once `finish` has returned. Throws `NotBegun`;
     * `SourceChanged` if the second pass would be longer than the first, and the piece does not count.
     */
    update(piece: Uint8Array): Uint8Array;

    /** Ends the opening. Throws `NotBegun`; `SourceChanged`: then throw away what `update` returned. */
    finish(): void;

    /**
     * The second pass as a stream, after `beginSecond`: pieces of ciphertext become text. Use what comes out once the stream has
     * ended: it fails with `SourceChanged` if the second pass was over other bytes than the first.
     */
    stream(): TransformStream<Uint8Array, Uint8Array>;

    /** Gives the opening up, and leaves zeros in its memory, as `finish` does. */
    wipe(): void;
}

/**
 * A sealing in pieces under AES-GCM-SIV, whose tag encrypts the text, in two readings: `absorb` for each piece, then `beginSecond`,
 * which gives the tag; then `update` for each piece again, then `finish`. The ciphertext of all pieces, followed by the tag, is what
 * `seal` returns for the whole text. The readings may be cut in different ways. It cannot be cloned.
 */
export class SivSealer {
    private constructor();

    /** Takes the next piece in the first reading. Throws `NotBegun`; `TextTooLong`, and a shorter piece may follow. */
    absorb(piece: Uint8Array): void;

    /** Ends the first reading, begins the second, and returns the tag. Throws `NotBegun`. */
    beginSecond(): Uint8Array;

    /**
     * Returns the ciphertext of the next piece in the second reading, which may be used once `finish` has returned. Throws `NotBegun`;
     * `SourceChanged` if the second reading would be longer than the first, and the piece does not count.
     */
    update(piece: Uint8Array): Uint8Array;

    /** Ends the sealing. Throws `NotBegun`; `SourceChanged`: then throw away what `update` returned. */
    finish(): void;

    /** The second reading as a stream, after `beginSecond`. It fails with `SourceChanged` as an `Opener`'s does. The tag is apart. */
    stream(): TransformStream<Uint8Array, Uint8Array>;

    /** Gives the sealing up, and leaves zeros in its memory, as `finish` does. */
    wipe(): void;
}
