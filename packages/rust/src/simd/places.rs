//! The places that lanes move from.

use core::marker::PhantomData;

/// The places that `M` lanes move from, and what registers need of them. It is made in a `const` block: what is not known before
/// functions are inlined comes too late for LLVM to see which instruction moves the lanes.
#[derive(Clone, Copy)]
pub struct Places<T, const M: usize> {
    pub(super) moves: Moves,
    of: PhantomData<T>,
}

/// The moves of the bytes of the lanes.
#[derive(Clone, Copy)]
pub struct Moves {
    /// The place that each new byte comes from.
    pub bytes: [usize; 64],
    /// The place that each new word of 4 bytes comes from, if bytes move by whole words.
    pub words: [usize; 16],
    /// Whether bytes move by whole words.
    pub by_words: bool,
    /// For each 16 new bytes and each 16 old ones: the place of each byte there, or 128 if it is not there.
    pub masks: [[[u8; 16]; 8]; 4],
    /// Whether any of these 16 new bytes comes from these 16 old ones.
    pub some: [[bool; 8]; 4],
    /// Whether bytes stay in their own 16 bytes of the first vector.
    pub within: bool,
}

impl<T, const M: usize> Places<T, M> {
    /// The places of lanes, where each new lane comes from. In a shuffle the lanes of the second vector follow those of the first.
    pub const fn new(lanes: [usize; M]) -> Self {
        let width = size_of::<T>();
        let mut moves = Moves {
            bytes: [0; 64],
            words: [0; 16],
            by_words: true,
            masks: [[[128; 16]; 8]; 4],
            some: [[false; 8]; 4],
            within: true,
        };
        let mut i = 0;
        while i < M * width {
            let from = lanes[i / width] * width + i % width;
            moves.bytes[i] = from;
            if i % 4 == 0 {
                moves.words[i / 4] = from / 4;
            }
            moves.by_words &= from == 4 * moves.words[i / 4] + i % 4;
            moves.masks[i / 16][from / 16][i % 16] = (from % 16) as u8;
            moves.some[i / 16][from / 16] = true;
            moves.within &= from / 16 == i / 16;
            i += 1;
        }
        Places { moves, of: PhantomData }
    }

    /// The last lane first.
    pub const fn reversed() -> Self {
        let mut lanes = [0; M];
        let mut i = 0;
        while i < M {
            lanes[i] = M - 1 - i;
            i += 1;
        }
        Places::new(lanes)
    }

    /// The lanes of two vectors in turn, from this one on.
    pub const fn in_turn(first: usize) -> Self {
        let mut lanes = [0; M];
        let mut i = 0;
        while i < M {
            lanes[i] = (first + i) / 2 + (first + i) % 2 * M;
            i += 1;
        }
        Places::new(lanes)
    }
}
