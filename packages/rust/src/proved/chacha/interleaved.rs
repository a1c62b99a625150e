// Made from crates/chacha/src/interleaved.rt by tools/erase: not to be edited.
//! The key stream of ChaCha20 (RFC 8439, 2.4), XORed into a text, interleaved with a hash of the same text: first the whole runs of
//! the text, and then the rest.

use crate::proved::chacha::plan::{has_run_of_eight, has_run_of_four};
use crate::proved::chacha::runs::{hash_then_mask, mask_then_hash};
use crate::proved::chacha::stream::xor_stream;
use crate::proved::octets::{BlockWork, Idle, Interleaved, Key32, Nonce};
use crate::simd::{u32x4, u32x8};

// XORs whole runs of the key stream from an offset on into the bytes after the first `begun`, while `hash` takes in bytes that
// are masked, from the first on. Returns the number of bytes before the first that is not masked, and how many of them are
// hashed. If the offset is inside a block, there is no run.
fn mask_runs<W: BlockWork>(
    key: &Key32,
    nonce: &Nonce,
    offset: u64,
    bytes: &mut [u8],
    begun: usize,
    hash: &mut W,
) -> (usize, usize) {
    let left = bytes.len() - begun;
    let skip = (offset % 64) as usize;
    if has_run_of_eight(skip, left) {
        return mask_then_hash::<[u32x8; 16], W>(key, (offset / 64) as u32, nonce, bytes, begun, hash);
    }
    if has_run_of_four(skip, left) {
        return mask_then_hash::<[u32x4; 16], W>(key, (offset / 64) as u32, nonce, bytes, begun, hash);
    }
    (begun, 0)
}

// XORs the key stream from an offset on into the bytes after the first `done`, while `hash` takes in the bytes after the first
// `taken`, as far as they are whole blocks, each after it is masked. Both numbers are of whole blocks of 16 bytes.
fn mask_last<W: BlockWork>(
    key: &Key32,
    nonce: &Nonce,
    offset: u64,
    bytes: &mut [u8],
    done: usize,
    taken: usize,
    hash: &mut W,
) {
    let (before, after) = bytes.split_at_mut(done);
    let mut interleaved = Interleaved { hash: *hash, left: &before[taken..] };
    xor_stream(key, nonce, offset, after, &mut interleaved);
    *hash = interleaved.hash;
    let left = done - interleaved.left.len();
    let whole = bytes.len() / 16 * 16;
    hash.take_all(&bytes[left..whole]);
}

// XORs the key stream from an offset on into the bytes after the first `begun`, and then hashes the whole blocks of all bytes.
fn mask_plainly<W: BlockWork>(key: &Key32, nonce: &Nonce, offset: u64, bytes: &mut [u8], begun: usize, hash: &mut W) {
    let (_, after) = bytes.split_at_mut(begun);
    xor_stream(key, nonce, offset, after, &mut Idle::new());
    let whole = bytes.len() / 16 * 16;
    hash.take_all(&bytes[..whole]);
}

// XORs the key stream from an offset on into the bytes after the first `begun`, while `hash` takes in the whole blocks of all
// bytes, each byte after it is masked.
pub(in crate::proved::chacha) fn mask_interleaved<W: BlockWork>(
    key: &Key32,
    nonce: &Nonce,
    offset: u64,
    bytes: &mut [u8],
    begun: usize,
    hash: &mut W,
) {
    if begun % 16 != 0 {
        mask_plainly(key, nonce, offset, bytes, begun, hash);
        return;
    }
    let (done, taken) = mask_runs(key, nonce, offset, bytes, begun, hash);
    mask_last(key, nonce, offset + (done - begun) as u64, bytes, done, taken, hash);
}

// XORs whole runs of the key stream from an offset on into the bytes, while `hash` takes in the bytes of the runs, each before it
// is masked. Returns the length of the runs in bytes. If the offset is inside a block, there is no run.
fn hash_runs<W: BlockWork>(key: &Key32, nonce: &Nonce, offset: u64, bytes: &mut [u8], hash: &mut W) -> usize {
    let skip = (offset % 64) as usize;
    if has_run_of_eight(skip, bytes.len()) {
        return hash_then_mask::<[u32x8; 16], W>(key, (offset / 64) as u32, nonce, bytes, hash);
    }
    if has_run_of_four(skip, bytes.len()) {
        return hash_then_mask::<[u32x4; 16], W>(key, (offset / 64) as u32, nonce, bytes, hash);
    }
    0
}

// Hashes the whole blocks of the bytes, and then XORs the key stream from an offset on into the bytes.
fn hash_last<W: BlockWork>(key: &Key32, nonce: &Nonce, offset: u64, bytes: &mut [u8], hash: &mut W) {
    let whole = bytes.len() / 16 * 16;
    hash.take_all(&bytes[..whole]);
    xor_stream(key, nonce, offset, bytes, &mut Idle::new());
}

// XORs the key stream from an offset on into the bytes, while `hash` takes in their whole blocks, each byte before it is masked.
pub(in crate::proved::chacha) fn hash_interleaved<W: BlockWork>(
    key: &Key32,
    nonce: &Nonce,
    offset: u64,
    bytes: &mut [u8],
    hash: &mut W,
) {
    let done = hash_runs(key, nonce, offset, bytes, hash);
    let (_, after) = bytes.split_at_mut(done);
    hash_last(key, nonce, offset + done as u64, after, hash);
}
