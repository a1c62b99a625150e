// Made from crates/chacha/src/plan.rt by tools/erase: not to be edited.
//! How many blocks of a key stream are made at once: every threshold of ChaCha20, in bytes. All forms make the same bytes and
//! differ in speed alone. The thresholds were found by measuring, and docs/SPEED.md says what each form brings.

use crate::proved::octets::wide;

// The length in bytes of a run, whose blocks are computed side by side and interleaved with other work: eight blocks if they fit
// into the registers, else four. With AVX2, eight in place of four are 1.5 times as fast.
#[inline(always)]
fn run() -> usize {
    if wide() { 512 } else { 256 }
}

/// Returns whether bytes begin with a run, in a build where a run is eight blocks. `skip` is their offset in the first block: a
/// run begins with its first byte.
#[inline(always)]
pub(in crate::proved::chacha) fn has_run_of_eight(skip: usize, length: usize) -> bool {
    wide() && skip == 0 && length >= 512
}

/// Returns whether bytes begin with a run, in a build where a run is four blocks.
#[inline(always)]
pub(in crate::proved::chacha) fn has_run_of_four(skip: usize, length: usize) -> bool {
    !wide() && skip == 0 && length >= 256
}

/// More key stream in bytes than this, one block, is made two blocks at once by rows: 390 cycles in place of twice 295. With AVX2 two
/// blocks, 310 cycles, take hardly longer than one, 280, so two are always made.
#[inline(always)]
pub(in crate::proved::chacha) fn one_at_most() -> usize {
    if wide() { 0 } else { 64 }
}

/// The length in bytes of six blocks. More key stream than this is made eight blocks at once in lanes, with AVX2: if the bytes begin a
/// block, the first half is masked in place, and only the other half by way of a buffer.
pub(in crate::proved::chacha) const SIX_AT_MOST: usize = 384;

/// The length in bytes of the longest text that the blocks with the counters 1 to 7 mask. Up to this length an opening hashes the
/// ciphertext and then decrypts it; in a longer one, both are interleaved.
pub const SEVEN_BLOCKS: usize = 448;

/// How many blocks of a key stream are computed at once.
#[derive(Clone, Copy)]
pub enum BlocksAtOnce {
    /// The blocks of [`TwoBlocks`](crate::proved::chacha::TwoBlocks).
    Two,
    /// The blocks of [`ThreeBlocks`](crate::proved::chacha::ThreeBlocks).
    Three,
    /// The blocks of [`FourBlocks`](crate::proved::chacha::FourBlocks).
    Four,
    /// The blocks of [`FiveBlocks`](crate::proved::chacha::FiveBlocks).
    Five,
    /// The blocks of [`SixBlocks`](crate::proved::chacha::SixBlocks).
    Six,
    /// The blocks of [`EightBlocks`](crate::proved::chacha::EightBlocks).
    Eight,
}

impl BlocksAtOnce {
    /// Returns how many blocks are computed at once for a text of `length` bytes that is masked from counter 1 on. The block of
    /// counter 0 is not for the text, and the others mask what runs of eight, or without AVX2 of four, do not fill. With AVX2, six are
    /// enough for 449 to 512 bytes: the others are made while the bytes before them are hashed.
    pub fn for_text(length: usize) -> BlocksAtOnce {
        if wide() && 448 < length && length <= 512 {
            return BlocksAtOnce::Six;
        }
        BlocksAtOnce::for_key_stream(65 + (length.max(1) - 1) % run())
    }

    /// Returns how many blocks are computed at once for `length` bytes of key stream.
    #[inline(always)]
    pub(in crate::proved::chacha) fn for_key_stream(length: usize) -> BlocksAtOnce {
        if wide() {
            // By rows two blocks take 310 cycles, four in two pairs 410 and six in three pairs 525, eight in lanes 620.
            return match length {
                0..=128 => BlocksAtOnce::Two,
                129..=256 => BlocksAtOnce::Four,
                257..=384 => BlocksAtOnce::Six,
                _ => BlocksAtOnce::Eight,
            };
        }
        // By rows two blocks take 390 cycles and three 490, four in lanes 570, and five, of which one is made by rows in the idle slots
        // of four in lanes, 720.
        match length {
            0..=128 => BlocksAtOnce::Two,
            129..=192 => BlocksAtOnce::Three,
            193..=256 => BlocksAtOnce::Four,
            _ => BlocksAtOnce::Five,
        }
    }
}

/// Returns whether interleaving a hash with the mask of a text of `length` bytes takes less time than hashing after it. The key
/// stream for the first `ready` bytes is made already. A run is interleaved with the hash of what is masked before it: if that is
/// less than half a run, a whole run has to follow. An opening hashes that run itself. Sealing 1 KiB became 1.2 times as fast.
pub fn interleaving_pays(ready: usize, length: usize) -> bool {
    length > ready && (ready >= run() / 2 || length - ready >= run())
}
