//! The vectors of `docs/published.vectors` and `docs/edges.vectors`, in the format of `docs/VECTOR-FILES.md`.

mod forms;

use aeadkit::{
    Aad, Error, Key, Suite, WrappingKey, unwrap_padded_to_vec, unwrap_to_vec, wrap_padded_to_vec, wrap_to_vec,
};
use std::collections::{BTreeSet, HashMap};

fn bytes(hex: &str) -> Vec<u8> {
    hex.as_bytes().chunks(2).map(|pair| u8::from_str_radix(std::str::from_utf8(pair).unwrap(), 16).unwrap()).collect()
}

/// The lengths of pieces, of which each record takes another one than the record before.
const PIECES: [usize; 8] = [1, 7, 16, 61, 64, 200, 511, 1500];

/// Wants a record to have the sealing of its text, or if it is `invalid` to be refused, by every call.
fn check(record: &HashMap<&str, &str>, piece: usize) {
    let bytes_of = |name| record.get(name).map(|hex| bytes(hex)).unwrap_or_default();
    let [key, nonce, aad, sealed, text] = ["key", "nonce", "aad", "sealed", "text"].map(bytes_of);
    let (name, is_invalid) = (record["suite"], record.contains_key("invalid"));
    if let Ok(suite) = name.parse() {
        let (key, nonce) = (Key::new(suite, &key).unwrap(), nonce.try_into().unwrap());
        return match is_invalid {
            true => forms::refuse(&key, &nonce, &sealed, Aad(&aad), piece),
            false => forms::agree(&key, &nonce, &text, &sealed, Aad(&aad), piece),
        };
    }
    let key = WrappingKey(&key);
    let (opened, made) = match name.ends_with("-wrap-pad") {
        true => (unwrap_padded_to_vec(key, &sealed), wrap_padded_to_vec(key, &text)),
        false => (unwrap_to_vec(key, &sealed), wrap_to_vec(key, &text)),
    };
    match is_invalid {
        true => assert!(matches!(opened.unwrap_err(), Error::WrapIntegrity | Error::WrapLength)),
        false => assert_eq!((opened, made), (Ok(text), Ok(sealed))),
    }
}

/// Checks each record of a file, which has every suite and both wraps.
fn check_file(path: &str) {
    let Ok(file) = std::fs::read_to_string(path) else {
        return eprintln!("skipped: {path} is not there, as outside the repository");
    };
    let (mut record, mut suites, mut pieces) = (HashMap::new(), BTreeSet::new(), PIECES.into_iter().cycle());
    for line in file.lines().map(str::trim_end).filter(|line| !line.is_empty() && !line.starts_with('#')) {
        let (name, value) = line.split_once('=').unwrap_or((line, ""));
        record.insert(name.trim_end(), value.trim_start());
        if ["text", "invalid"].contains(&name.trim_end()) {
            println!("{record:?}"); // which is shown if it fails
            check(&record, pieces.next().unwrap());
            suites.insert(record["suite"]);
            record.clear();
        }
    }
    assert!(record.is_empty(), "the file ends in a record");
    assert!(Suite::ALL.iter().all(|suite| suites.contains(suite.name())), "{suites:?}");
    assert!(["-wrap", "-wrap-pad"].iter().all(|end| suites.iter().any(|name| name.ends_with(end))), "{suites:?}");
}

#[test]
fn published_vectors() {
    check_file(concat!(env!("CARGO_MANIFEST_DIR"), "/../../docs/published.vectors"));
}

#[test]
fn edges() {
    check_file(concat!(env!("CARGO_MANIFEST_DIR"), "/../../docs/edges.vectors"));
}
