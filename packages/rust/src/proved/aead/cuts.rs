// Made from crates/aead/src/cuts.rt by tools/erase: not to be edited.
//! A whole sealing that is returned in pieces, at offsets of the caller's choice.

use crate::kit::alloc::{AllocError, Allocator, Vec};
use crate::proved::aead::any::AnyAead;
use crate::proved::aead::whole::seal;
use crate::proved::octets::{Fault, Nonce};

// Appends a copy of `piece`.
fn add<A: Allocator + Copy>(alloc: A, pieces: &mut Vec<Vec<u8, A>, A>, piece: &[u8]) -> Result<(), AllocError> {
    let bytes = Vec::from_slice(alloc, piece)?;
    pieces.push(bytes)?;
    Ok(())
}

// Cuts bytes into pieces, which begin at offset 0 and at each cut that is at most their length.
fn cut_into<A: Allocator + Copy>(
    alloc: A,
    pieces: &mut Vec<Vec<u8, A>, A>,
    bytes: &[u8],
    cuts: &[u64],
) -> Result<(), AllocError> {
    let mut place = 0;
    for cut in cuts {
        if *cut <= bytes.len() as u64 {
            let end = *cut as usize;
            add(alloc, pieces, &bytes[place..end])?;
            place = end;
        }
    }
    add(alloc, pieces, &bytes[place..])?;
    Ok(())
}

/// Returns the sealing of a text in pieces: the ciphertext in pieces that begin at offset 0 and at each cut
/// that is at most the text's length, and then the tag as one more. The caller shows that the cuts rise
/// strictly and are at least 1. Allocates the sealing whole, and then in pieces. Faults: `AadTooLong`, then
/// `TextTooLong`, if a length in bytes is past the suite's limit, then `OutOfMemory`.
///
/// The nonce must never be used twice under one key. Under ChaCha20-Poly1305 and AES-GCM a repeat gives away the XOR of
/// the two texts, and enough to forge messages; under AES-GCM-SIV it gives away only whether the texts and the
/// associated data were the same.
pub fn seal_cut<A: Allocator + Copy>(
    alloc: A,
    cipher: &AnyAead,
    nonce: &Nonce,
    aad: &[u8],
    text: &[u8],
    cuts: &[u64],
) -> Result<Vec<Vec<u8, A>, A>, Fault> {
    // The text is sealed whole first, so that the proof needs only the contract of `seal`.
    let sealed = seal(alloc, cipher, nonce, aad, text)?;
    let (body, tag) = sealed.split_at(text.len());
    let mut pieces = Vec::new(alloc);
    cut_into(alloc, &mut pieces, body, cuts)?;
    add(alloc, &mut pieces, tag)?;
    Ok(pieces)
}
