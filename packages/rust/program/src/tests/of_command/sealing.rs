// Made from crates/aeadkit/src/tests/of_command/sealing.rt by tools/erase: not to be edited.
//! `seal` and `open` on published vectors.
use super::super::devices::NO_FILES;
use super::super::published::{CHACHA, GCM_4, GCM_SIV_WRAPS, VECTORS, Vector};
use super::super::runs::{prints, runs_over, runs_row};
use crate::kit::alloc::Global;
use crate::kit::{Abort, Alloc, HostRuntime};

// A status, a fault and the words that are refused with them; `-` is the empty word.
const REFUSED: &str = "\
2 UnknownSuite seal --suite des --key 0 --nonce 07 --aad 0 --text 0
2 UnknownSuite seal --suite AES-128-GCM --key - --nonce - --aad - --text -
2 UnknownSuite seal --suite - --key 0 --nonce 07 --aad - --text -
2 BadHex seal --suite aes-128-gcm --key 0 --nonce 00 --aad - --text -
2 BadHex seal --suite aes-128-gcm --key 00 --nonce 0 --aad - --text -
2 BadHex seal --suite aes-128-gcm --key 00 --nonce 00 --aad 0 --text -
2 BadHex seal --suite aes-128-gcm --key 00 --nonce 00 --aad - --text zz
2 KeyLength seal --suite aes-128-gcm --key 00 --nonce 00 --aad - --text -
2 KeyLength seal --suite aes-256-gcm --key 00000000000000000000000000000000 --nonce 00 --aad - --text -
2 KeyLength seal --suite aes-256-gcm-siv --key 000000000000000000000000000000000000000000000000 --nonce 00 --aad - --text -
2 NonceLength seal --suite aes-128-gcm --key 00000000000000000000000000000000 --nonce 00 --aad - --text -
2 NonceLength seal --suite aes-128-gcm --key 00000000000000000000000000000000 --nonce - --aad - --text -
2 NonceLength seal --suite chacha20-poly1305 --key 808182838485868788898a8b8c8d8e8f909192939495969798999a9b9c9d9e9f \
    --nonce 07 --aad 50515253c0c1c2c3c4c5c6c7 --text 00";

// Seals a text, and opens its sealed bytes.
fn is_sealed(rt: &(impl Abort + Alloc<A = Global>), line: &str) {
    let vector = Vector::of(line);
    prints(rt, &vector.words("seal", "--text", vector.text), vector.sealed);
    prints(rt, &vector.words("open", "--sealed", vector.sealed), vector.text);
}

#[test]
fn standard_vectors() {
    let rt = HostRuntime;
    for line in &VECTORS {
        is_sealed(&rt, line);
    }
    is_sealed(&rt, GCM_SIV_WRAPS);
}

// Runs a row of `seal`, and the same row for `open`.
fn is_refused_both_ways(rt: &(impl Abort + Alloc<A = Global>), row: &str) {
    runs_row(rt, &NO_FILES, row);
    let opening = row.replace(" seal ", " open ");
    let opening = opening.replace("--text", "--sealed");
    runs_row(rt, &NO_FILES, &opening);
}

// For sealing and for opening, the suite's name is checked first, then the hex of key, nonce, associated data and body,
// then the key's length, then the nonce's length.
#[test]
fn refusals_in_order() {
    let rt = HostRuntime;
    for row in REFUSED.lines() {
        is_refused_both_ways(&rt, row);
    }
}

// These bytes are not a valid sealing under a vector's inputs, and have this fault.
fn is_no_sealing(rt: &(impl Abort + Alloc<A = Global>), vector: &Vector<'_>, sealed: &str, fault: &str) {
    let words = vector.words("open", "--sealed", sealed);
    runs_over(rt, &NO_FILES, &words, 1, None, fault);
}

// A shorter beginning of a sealing is not a valid sealing.
#[test]
fn cut_sealings() {
    let rt = HostRuntime;
    for line in [CHACHA, GCM_4] {
        let vector = Vector::of(line);
        for count in 0..vector.sealed.len() / 2 {
            let fault = if count < 16 { "TooShort" } else { "TagMismatch" };
            let sealed = vector.sealed.get(..2 * count).unwrap_or("");
            is_no_sealing(&rt, &vector, sealed, fault);
        }
    }
}

// A sealing is not valid under other associated data.
#[test]
fn other_associated_data() {
    let rt = HostRuntime;
    let mut vector = Vector::of(CHACHA);
    for aad in ["", "51515253c0c1c2c3c4c5c6c7"] {
        vector.aad = aad;
        is_no_sealing(&rt, &vector, vector.sealed, "TagMismatch");
    }
}
