// Made from crates/chacha/src/stream.rt by tools/erase: not to be edited.
//! The key stream of ChaCha20 (RFC 8439, 2.4), XORed into a text that comes in pieces. Each part of a piece takes the form that
//! `plan` chooses for its length.

use crate::proved::chacha::interleaved::{hash_interleaved, mask_interleaved};
use crate::proved::chacha::plan::{BlocksAtOnce, SIX_AT_MOST, has_run_of_eight, has_run_of_four, one_at_most};
use crate::proved::chacha::rows::block;
use crate::proved::chacha::runs::{xor_eight, xor_runs};
use crate::proved::chacha::start::{
    EightBlocks, FiveBlocks, FourBlocks, KeyStreamStart, SixBlocks, ThreeBlocks, TwoBlocks,
};
use crate::proved::octets::{BlockWork, Fault, Idle, Key32, Nonce, Stream, Work, wide, xor_into};
use crate::simd::{u32x4, u32x8};

// The length in bytes of the key stream from counter 0 on: 2^32 blocks of 64 bytes.
const END: u64 = 0x40_0000_0000;

/// A ChaCha20 key stream and the position of its next byte (RFC 8439, 2.4). A stream is for one text.
#[derive(Clone, Copy)]
pub struct ChaStream {
    key: Key32,
    nonce: Nonce,
    // The offset of the next byte in the key stream that starts at counter 0. If it is inside a block, that block is
    // computed again: the state keeps no bytes of it.
    offset: u64,
}

impl ChaStream {
    /// Returns the key stream that starts with the block of counter `first` (RFC 8439, 2.4), at its first byte.
    ///
    /// A nonce must never be used twice under one key. Two texts that are XORed with the same part of a key stream give away
    /// their XOR, and whoever knows one of them knows the other. The stream authenticates nothing.
    pub fn new(key: &Key32, nonce: &Nonce, first: u32) -> ChaStream {
        ChaStream::at(key, nonce, first as u64 * 64)
    }

    /// Returns the key stream that starts at counter 0, at the byte at `offset`, which is at most its length. As for
    /// [`ChaStream::new`], no byte of the stream may mask two texts.
    pub fn at(key: &Key32, nonce: &Nonce, offset: u64) -> ChaStream {
        ChaStream { key: *key, nonce: *nonce, offset }
    }

    /// XORs the next bytes of the key stream into `bytes`, of any length (RFC 8439, 2.4). The result does not depend on
    /// how a text is split into calls.
    ///
    /// Returns `StreamEnd` if a block past counter 2^32 - 1 would be needed, and then leaves the stream and the bytes as they
    /// were. Empty `bytes` need no block.
    pub fn apply(&mut self, bytes: &mut [u8]) -> Result<(), Fault> {
        if bytes.len() as u64 > END - self.offset {
            return Err(Fault::StreamEnd);
        }
        xor_stream(&self.key, &self.nonce, self.offset, bytes, &mut Idle::new());
        self.offset += bytes.len() as u64;
        Ok(())
    }

    /// XORs the next bytes of the key stream into `bytes` after the first `begun`, while `hash` takes in the whole blocks of all
    /// `bytes`, each byte after it is masked.
    ///
    /// If a block past counter 2^32 - 1 would be needed, `bytes` stay as they are, and `hash` takes in their whole blocks.
    pub fn apply_and_hash<W: BlockWork>(&mut self, bytes: &mut [u8], begun: usize, hash: &mut W) {
        if (bytes.len() - begun) as u64 > END - self.offset {
            hash.take_all(&bytes[..bytes.len() / 16 * 16]);
            return;
        }
        mask_interleaved(&self.key, &self.nonce, self.offset, bytes, begun, hash);
        self.offset += (bytes.len() - begun) as u64;
    }

    /// XORs the next bytes of the key stream into `bytes`, while `hash` takes in their whole blocks, each byte before it is masked.
    ///
    /// If a block past counter 2^32 - 1 would be needed, `bytes` stay as they are, and `hash` takes in their whole blocks.
    pub fn hash_and_apply<W: BlockWork>(&mut self, bytes: &mut [u8], hash: &mut W) {
        if self.offset + bytes.len() as u64 > END {
            hash.take_all(&bytes[..bytes.len() / 16 * 16]);
            return;
        }
        hash_interleaved(&self.key, &self.nonce, self.offset, bytes, hash);
        self.offset += bytes.len() as u64;
    }
}

impl Stream for ChaStream {
    fn apply_next(&mut self, bytes: &mut [u8]) {
        // Within the limits of the suites the key stream does not end. No text leaves unmasked if it does.
        match self.apply(bytes) {
            Ok(()) => {}
            Err(_) => bytes.fill(0),
        }
    }
}

// XORs the key stream into the bytes, from an offset of the stream that starts at counter 0.
pub(in crate::proved::chacha) fn xor_stream<W: Work>(
    key: &Key32,
    nonce: &Nonce,
    offset: u64,
    bytes: &mut [u8],
    work: &mut W,
) {
    let mut done = 0;
    while done < bytes.len() {
        done += xor_run(key, nonce, offset + done as u64, &mut bytes[done..], work);
    }
}

// XORs the key stream from an offset on into the first bytes, in the widest form that fits, and returns the number of these
// bytes.
fn xor_run<W: Work>(key: &Key32, nonce: &Nonce, offset: u64, bytes: &mut [u8], work: &mut W) -> usize {
    let counter = (offset / 64) as u32;
    let skip = (offset % 64) as usize;
    if has_run_of_eight(skip, bytes.len()) {
        let whole = bytes.len() / 512 * 512;
        xor_runs::<[u32x8; 16], W>(key, counter, nonce, &mut bytes[..whole], work);
        return whole;
    }
    if has_run_of_four(skip, bytes.len()) {
        let whole = bytes.len() / 256 * 256;
        xor_runs::<[u32x4; 16], W>(key, counter, nonce, &mut bytes[..whole], work);
        return whole;
    }
    if wide() && skip == 0 && bytes.len() > SIX_AT_MOST && counter <= u32::MAX - 7 {
        let mut stream = [0; 256];
        let (front, back) = bytes.split_at_mut(256);
        xor_eight(key, counter, nonce, front, &mut stream, work);
        return 256 + xor_part(&stream, 0, back);
    }
    if skip + bytes.len() <= one_at_most() || counter > u32::MAX - 7 {
        return xor_part(&block(key, counter, nonce), skip, bytes);
    }
    match BlocksAtOnce::for_key_stream(skip + bytes.len()) {
        BlocksAtOnce::Two => xor_blocks::<TwoBlocks, W>(key, nonce, offset, bytes, work),
        BlocksAtOnce::Three => xor_blocks::<ThreeBlocks, W>(key, nonce, offset, bytes, work),
        BlocksAtOnce::Four => xor_blocks::<FourBlocks, W>(key, nonce, offset, bytes, work),
        BlocksAtOnce::Five => xor_blocks::<FiveBlocks, W>(key, nonce, offset, bytes, work),
        BlocksAtOnce::Six => xor_blocks::<SixBlocks, W>(key, nonce, offset, bytes, work),
        BlocksAtOnce::Eight => xor_blocks::<EightBlocks, W>(key, nonce, offset, bytes, work),
    }
}

// XORs the key stream from an offset on into the first bytes, by way of a buffer for the blocks from that of the offset on, and
// returns the number of these bytes.
#[inline(always)]
fn xor_blocks<S: KeyStreamStart, W: Work>(
    key: &Key32,
    nonce: &Nonce,
    offset: u64,
    bytes: &mut [u8],
    work: &mut W,
) -> usize {
    let mut stream = S::zeros();
    stream.set_from(key, (offset / 64) as u32, nonce, work);
    xor_part(stream.blocks(), (offset % 64) as usize, bytes)
}

// XORs the bytes of `stream` from offset `skip` on into the first bytes, and returns their number. It is a separate
// function, since inlining would copy it into the code for each width.
#[inline(never)]
fn xor_part(stream: &[u8], skip: usize, bytes: &mut [u8]) -> usize {
    let count = (stream.len() - skip).min(bytes.len());
    xor_into(&mut bytes[..count], &stream[skip..skip + count]);
    count
}
