// Made from crates/command/src/commands.rt by tools/erase: not to be edited.
//! The commands on values given in hexadecimal, and `check`.

use crate::command::failure::Failure;
use crate::command::readings::file_bytes;
use crate::command::storage::Storage;
use crate::command::words::Inputs;
use crate::kit::alloc::{Allocator, Vec};
use crate::kit::hex::FromHexError;
use crate::vectors::Report;
use aeadkit::internals::aead::{AnyAead, Suite};
use aeadkit::internals::aes::AesKey;
use aeadkit::internals::octets::{Fault, Nonce};

// Returns the bytes that a hexadecimal value spells. `BadHex` if it is not an even number of hex digits.
fn decode<A: Allocator>(alloc: A, digits: &str) -> Result<Vec<u8, A>, Failure> {
    match crate::kit::hex::decode(alloc, digits) {
        Ok(bytes) => Ok(bytes),
        Err(FromHexError::OutOfMemory) => Err(Failure::Fault(Fault::OutOfMemory)),
        Err(_) => Err(Failure::BadHex),
    }
}

// Returns the wrapping of a text, with padding or without.
fn wrap_text<A: Allocator>(alloc: A, key: &AesKey, text: &[u8], pad: bool) -> Result<Vec<u8, A>, Fault> {
    if pad {
        aeadkit::internals::keywrap::wrap_padded(alloc, key, text)
    } else {
        aeadkit::internals::keywrap::wrap(alloc, key, text)
    }
}

// Returns the text of a wrapping, with padding or without.
fn unwrap_text<A: Allocator>(alloc: A, key: &AesKey, sealed: &[u8], pad: bool) -> Result<Vec<u8, A>, Fault> {
    if pad {
        aeadkit::internals::keywrap::unwrap_padded(alloc, key, sealed)
    } else {
        aeadkit::internals::keywrap::unwrap(alloc, key, sealed)
    }
}

// A key, and a text to wrap or a wrapping.
struct WrapInputs<A: Allocator> {
    key: AesKey,
    body: Vec<u8, A>,
}

// Returns the key and the bytes that the words spell. Faults, in this order: `BadHex` for the key, then for the bytes, and
// `KeyLength`.
fn wrap_inputs<'a, A: Allocator>(alloc: &'a A, key: &str, body: &str) -> Result<WrapInputs<&'a A>, Failure> {
    let key_bytes = decode(alloc, key)?;
    let body = decode(alloc, body)?;
    Ok(WrapInputs { key: AesKey::from_slice(&key_bytes)?, body })
}

// `wrap`: returns the wrapping of a text, with padding or without. Faults, in this order: `BadHex` for the key, then for the
// text, `KeyLength`, and those of the call.
pub(in crate::command) fn wrap<'a, A: Allocator>(
    alloc: &'a A,
    key: &str,
    text: &str,
    pad: bool,
) -> Result<Vec<u8, &'a A>, Failure> {
    let call = wrap_inputs(alloc, key, text)?;
    Ok(wrap_text(alloc, &call.key, &call.body, pad)?)
}

// `unwrap`: returns the text of a wrapping, with padding or without. Faults, in this order: `BadHex` for the key, then for the
// wrapping, `KeyLength`, and those of the call.
pub(in crate::command) fn unwrap<'a, A: Allocator>(
    alloc: &'a A,
    key: &str,
    sealed: &str,
    pad: bool,
) -> Result<Vec<u8, &'a A>, Failure> {
    let call = wrap_inputs(alloc, key, sealed)?;
    Ok(unwrap_text(alloc, &call.key, &call.body, pad)?)
}

// The inputs of a call under a suite.
pub(in crate::command) struct AeadInputs<A: Allocator> {
    pub(in crate::command) cipher: AnyAead,
    pub(in crate::command) nonce: Nonce,
    pub(in crate::command) aad: Vec<u8, A>,
    pub(in crate::command) body: Vec<u8, A>,
}

// Returns the inputs that the words spell. Faults, in this order: `UnknownSuite`, `BadHex` for the key, the nonce, the
// associated data and the body, `KeyLength`, `NonceLength`.
pub(in crate::command) fn aead_inputs<'a, A: Allocator>(
    alloc: &'a A,
    words: &Inputs<'_>,
) -> Result<AeadInputs<&'a A>, Failure> {
    let Some(suite) = Suite::named(words.suite) else {
        return Err(Failure::UnknownSuite);
    };
    let key = decode(alloc, words.key)?;
    let nonce = decode(alloc, words.nonce)?;
    let aad = decode(alloc, words.aad)?;
    let body = decode(alloc, words.body)?;
    Ok(AeadInputs { cipher: AnyAead::new(suite, &key)?, nonce: Nonce::from_slice(&nonce)?, aad, body })
}

// `seal`: returns the sealing of a text. The faults of its inputs come first, then those of the call.
pub(in crate::command) fn seal<'a, A: Allocator>(alloc: &'a A, words: &Inputs<'_>) -> Result<Vec<u8, &'a A>, Failure> {
    let call = aead_inputs(alloc, words)?;
    Ok(aeadkit::internals::aead::seal(alloc, &call.cipher, &call.nonce, &call.aad, &call.body)?)
}

// `open`: returns the text of sealed bytes. The faults of its inputs come first, then those of the call.
pub(in crate::command) fn open<'a, A: Allocator>(alloc: &'a A, words: &Inputs<'_>) -> Result<Vec<u8, &'a A>, Failure> {
    let call = aead_inputs(alloc, words)?;
    Ok(aeadkit::internals::aead::open(alloc, &call.cipher, &call.nonce, &call.aad, &call.body)?)
}

// `check`: returns the report of a vector file. The faults of reading it come first, then the first fault of its lines.
pub(in crate::command) fn check<'a, A: Allocator, F: Storage>(
    alloc: &'a A,
    files: &F,
    path: &str,
) -> Result<Report<&'a A>, Failure> {
    let file = file_bytes(alloc, files, path)?;
    match crate::vectors::check(alloc, &file) {
        Ok(report) => Ok(report),
        Err(fault) => Err(Failure::Vector(fault)),
    }
}
