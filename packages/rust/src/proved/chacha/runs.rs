// Made from crates/chacha/src/runs.rt by tools/erase: not to be edited.
//! Whole runs of blocks of ChaCha20 (RFC 8439, 2.4), alone or interleaved with a hash of the same text: a sealing hashes the bytes
//! after they are masked, an opening before.

use crate::proved::chacha::lanes::{
    eight_counters, four_blocks, next_blocks, set_four_starts, set_starts, xor_eight_serialized, xor_halves,
    xor_serialized,
};
use crate::proved::octets::{BlockWork, Interleaved, Key32, Nonce, Work};
use crate::simd::{u32x4, u32x8};

// Blocks that are computed side by side, one in each lane: the states from which they start, or their words.
pub(in crate::proved::chacha) trait Run: Copy {
    const SIZE: usize;

    // Returns the states from which the blocks with the counters `counter`, `counter + 1` and so on start.
    fn starts_at(key: &Key32, counter: u32, nonce: &Nonce) -> Self;

    // Returns the words of the blocks that start from these states, and offers places for steps of other work. Afterwards the
    // states are those of the next blocks.
    fn next<W: Work>(&mut self, work: &mut W) -> Self;

    // XORs the blocks with these words, serialized one after the other, into bytes of the same length.
    fn xor_serialized(&self, bytes: &mut [u8]);
}

impl Run for [u32x4; 16] {
    const SIZE: usize = 256;

    #[inline(always)]
    fn starts_at(key: &Key32, counter: u32, nonce: &Nonce) -> [u32x4; 16] {
        let mut start = [u32x4::splat(0); 16];
        set_four_starts(&mut start, key, counter, nonce);
        start
    }

    #[inline(always)]
    fn next<W: Work>(&mut self, work: &mut W) -> [u32x4; 16] {
        four_blocks(self, work)
    }

    #[inline(always)]
    fn xor_serialized(&self, bytes: &mut [u8]) {
        xor_serialized(self, bytes);
    }
}

impl Run for [u32x8; 16] {
    const SIZE: usize = 512;

    #[inline(always)]
    fn starts_at(key: &Key32, counter: u32, nonce: &Nonce) -> [u32x8; 16] {
        let mut start = [u32x8::splat(0); 16];
        set_starts(&mut start, key, eight_counters(counter), nonce);
        start
    }

    #[inline(always)]
    fn next<W: Work>(&mut self, work: &mut W) -> [u32x8; 16] {
        next_blocks(self, work)
    }

    #[inline(always)]
    fn xor_serialized(&self, bytes: &mut [u8]) {
        xor_eight_serialized(self, bytes);
    }
}

// XORs the key stream from a counter on into bytes that are whole runs, and offers 40 places for steps of other work in each. The
// states from which blocks start are set once. It is a separate function, since its frame would slow down the other forms.
#[inline(never)]
pub(in crate::proved::chacha) fn xor_runs<R: Run, W: Work>(
    key: &Key32,
    counter: u32,
    nonce: &Nonce,
    bytes: &mut [u8],
    work: &mut W,
) {
    let size = R::SIZE;
    let mut own = *work;
    let mut start = R::starts_at(key, counter, nonce);
    let mut done = 0;
    while bytes.len() - done >= size {
        let x = start.next(&mut own);
        x.xor_serialized(&mut bytes[done..done + size]);
        done += size;
    }
    *work = own;
}

// XORs the first 512 bytes of the key stream from a counter on into twice 256 bytes, and offers 40 places for steps of other
// work. It is a separate function, since inlining it would slow down the other widths.
#[inline(never)]
pub(in crate::proved::chacha) fn xor_eight<W: Work>(
    key: &Key32,
    counter: u32,
    nonce: &Nonce,
    front: &mut [u8],
    back: &mut [u8],
    work: &mut W,
) {
    let mut start = <[u32x8; 16]>::starts_at(key, counter, nonce);
    let x = start.next(work);
    xor_halves(&x, front, back);
}

// XORs the key stream from a counter on into all whole runs of the bytes after the first `begun`. `hash` takes in the bytes from
// the first on: while a run is computed, bytes before that run, which are masked. Returns the number of bytes before the first
// that is not masked, and how many of them are hashed.
#[inline(never)]
pub(in crate::proved::chacha) fn mask_then_hash<R: Run, W: BlockWork>(
    key: &Key32,
    counter: u32,
    nonce: &Nonce,
    bytes: &mut [u8],
    begun: usize,
    hash: &mut W,
) -> (usize, usize) {
    let size = R::SIZE;
    let mut own = *hash;
    let mut start = R::starts_at(key, counter, nonce);
    let mut taken = 0;
    let mut done = begun;
    while bytes.len() - done >= size {
        let (before, after) = bytes.split_at_mut(done);
        let mut interleaved = Interleaved { hash: own, left: &before[taken..] };
        let x = start.next(&mut interleaved);
        own = interleaved.hash;
        taken = done - interleaved.left.len();
        x.xor_serialized(&mut after[..size]);
        done += size;
    }
    *hash = own;
    (done, taken)
}

// XORs the key stream from a counter on into all whole runs of the bytes. `hash` takes in each run while its blocks are
// computed, before they are XORed in. Returns the length of the runs in bytes.
#[inline(never)]
pub(in crate::proved::chacha) fn hash_then_mask<R: Run, W: BlockWork>(
    key: &Key32,
    counter: u32,
    nonce: &Nonce,
    bytes: &mut [u8],
    hash: &mut W,
) -> usize {
    let size = R::SIZE;
    let mut own = *hash;
    let mut start = R::starts_at(key, counter, nonce);
    let mut done = 0;
    while bytes.len() - done >= size {
        let mut interleaved = Interleaved { hash: own, left: &bytes[done..done + size] };
        let x = start.next(&mut interleaved);
        own = interleaved.hash;
        own.take_all(interleaved.left);
        x.xor_serialized(&mut bytes[done..done + size]);
        done += size;
    }
    *hash = own;
    done
}
