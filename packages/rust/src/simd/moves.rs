//! Lanes moved to constant places.

use super::cast::{Plain, cast};
use super::places::{Moves, Places};
use super::processor::{LOOKS_UP, Long, Short};
use super::register::Register;
use super::{Lane, Simd};

/// Moves lanes of two vectors of `N`. Words of 4 bytes move one by one, of which LLVM makes the best moves that the processor has;
/// bytes move by look-ups where it has these.
#[inline(always)]
pub fn moved<T: Lane, const N: usize, const M: usize>(a: Simd<T, N>, b: Simd<T, N>, from: Places<T, M>) -> Simd<T, M> {
    let (both, moves) = ([a, b], &from.moves);
    let length = size_of::<Simd<T, N>>();
    if moves.by_words {
        return match length {
            8 => words::<4, _>(cast(cast::<_, Short>(both)), moves),
            16 => words::<8, _>(cast(cast::<_, [Short; 2]>(both)), moves),
            32 => words::<16, _>(cast(cast::<_, [Long; 2]>(both)), moves),
            64 => words::<32, _>(cast(cast::<_, [Long; 4]>(both)), moves),
            _ => unreachable!("no vector that moves has another size"),
        };
    }
    if !LOOKS_UP {
        return match length {
            8 => bytes::<16, _>(cast(both), moves),
            16 => bytes::<32, _>(cast(both), moves),
            32 => bytes::<64, _>(cast(both), moves),
            64 => bytes::<128, _>(cast(both), moves),
            _ => unreachable!("no vector that moves has another size"),
        };
    }
    if moves.within && size_of::<Simd<T, M>>() == length {
        let mask = |k: usize| cast::<_, Long>([moves.masks[k][k], moves.masks[k + 1][k + 1]]);
        match length {
            32 => return cast(cast::<_, Long>(a).look_up(mask(0))),
            64 => {
                let parts: [Long; 2] = cast(a);
                return cast([parts[0].look_up(mask(0)), parts[1].look_up(mask(2))]);
            }
            _ => {}
        }
    }
    match length {
        8 => looked_up::<1, _>(cast(both), moves),
        16 => looked_up::<2, _>(cast(both), moves),
        32 => looked_up::<4, _>(cast(both), moves),
        64 => looked_up::<8, _>(cast(both), moves),
        _ => unreachable!("no vector that moves has another size"),
    }
}

// Each word from its place.
#[inline(always)]
fn words<const K: usize, V: Plain>(from: [u32; K], moves: &Moves) -> V {
    let word = |i: usize| from[moves.words[i]];
    let four = |i: usize| cast::<_, Short>([word(i), word(i + 1), word(i + 2), word(i + 3)]);
    match size_of::<V>() {
        8 => cast([word(0), word(1)]),
        16 => cast(four(0)),
        32 => cast([four(0), four(4)]),
        64 => cast([four(0), four(4), four(8), four(12)]),
        _ => unreachable!("no vector that moves has another size"),
    }
}

// Each byte from its place. The list is written out where it stands: LLVM unrolls a loop too late, and makes words of what a
// function returns.
#[inline(always)]
fn bytes<const K: usize, V: Plain>(from: [u8; K], moves: &Moves) -> V {
    let byte = |i: usize| from[moves.bytes[i]];
    macro_rules! list {
        (4, $i:expr) => {
            [byte($i), byte($i + 1), byte($i + 2), byte($i + 3)]
        };
        (16, $i:expr) => {
            [list!(4, $i), list!(4, $i + 4), list!(4, $i + 8), list!(4, $i + 12)]
        };
    }
    match size_of::<V>() {
        8 => cast([list!(4, 0), list!(4, 4)]),
        16 => cast(list!(16, 0)),
        32 => cast([list!(16, 0), list!(16, 16)]),
        64 => cast([list!(16, 0), list!(16, 16), list!(16, 32), list!(16, 48)]),
        _ => unreachable!("no vector that moves has another size"),
    }
}

// Each 16 bytes by look-ups.
#[inline(always)]
fn looked_up<const K: usize, V: Plain>(from: [Short; K], moves: &Moves) -> V {
    let sixteen = |part: usize| sixteen(&from, moves, part);
    match size_of::<V>() {
        8 => cast(cast::<_, [u64; 2]>(sixteen(0))[0]),
        16 => cast(sixteen(0)),
        32 => cast([sixteen(0), sixteen(1)]),
        64 => cast([sixteen(0), sixteen(1), sixteen(2), sixteen(3)]),
        _ => unreachable!("no vector that moves has another size"),
    }
}

// The new bytes of one part: what is looked up in each 16 old bytes that have some of them.
#[inline(always)]
fn sixteen<const K: usize>(from: &[Short; K], moves: &Moves, part: usize) -> Short {
    let mut sum: Option<Short> = None;
    macro_rules! add {
        ($($piece:literal)*) => {$(
            if $piece < K && moves.some[part][$piece] {
                let found = from[$piece].look_up(cast(moves.masks[part][$piece]));
                sum = Some(match sum {
                    Some(sum) => sum.or(found),
                    None => found,
                });
            }
        )*};
    }
    add!(0 1 2 3 4 5 6 7);
    sum.unwrap_or(Short::same8(0))
}
