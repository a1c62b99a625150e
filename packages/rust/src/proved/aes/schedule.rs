// Made from crates/aes/src/schedule.rt by tools/erase: not to be edited.
//! The key schedule (FIPS 197, 5.2) in vectors, with look-ups in registers. The words are in the basis of `lanes`, four in a vector.

use crate::proved::aes::lanes::{Lanes, from_basis, substitute, to_basis};
use crate::simd::{Places, u8x16};

// Each round constant in the basis, in all four words, plus the constant of the S-box, which the S-box in lanes leaves out.
static ROUND_CONSTANTS: [[u8; 16]; 10] = [
    [0x7d, 0x7c, 0x7c, 0x7c, 0x7d, 0x7c, 0x7c, 0x7c, 0x7d, 0x7c, 0x7c, 0x7c, 0x7d, 0x7c, 0x7c, 0x7c],
    [0x23, 0x7c, 0x7c, 0x7c, 0x23, 0x7c, 0x7c, 0x7c, 0x23, 0x7c, 0x7c, 0x7c, 0x23, 0x7c, 0x7c, 0x7c],
    [0x6f, 0x7c, 0x7c, 0x7c, 0x6f, 0x7c, 0x7c, 0x7c, 0x6f, 0x7c, 0x7c, 0x7c, 0x6f, 0x7c, 0x7c, 0x7c],
    [0x6d, 0x7c, 0x7c, 0x7c, 0x6d, 0x7c, 0x7c, 0x7c, 0x6d, 0x7c, 0x7c, 0x7c, 0x6d, 0x7c, 0x7c, 0x7c],
    [0xb5, 0x7c, 0x7c, 0x7c, 0xb5, 0x7c, 0x7c, 0x7c, 0xb5, 0x7c, 0x7c, 0x7c, 0xb5, 0x7c, 0x7c, 0x7c],
    [0x93, 0x7c, 0x7c, 0x7c, 0x93, 0x7c, 0x7c, 0x7c, 0x93, 0x7c, 0x7c, 0x7c, 0x93, 0x7c, 0x7c, 0x7c],
    [0xb1, 0x7c, 0x7c, 0x7c, 0xb1, 0x7c, 0x7c, 0x7c, 0xb1, 0x7c, 0x7c, 0x7c, 0xb1, 0x7c, 0x7c, 0x7c],
    [0x52, 0x7c, 0x7c, 0x7c, 0x52, 0x7c, 0x7c, 0x7c, 0x52, 0x7c, 0x7c, 0x7c, 0x52, 0x7c, 0x7c, 0x7c],
    [0xfa, 0x7c, 0x7c, 0x7c, 0xfa, 0x7c, 0x7c, 0x7c, 0xfa, 0x7c, 0x7c, 0x7c, 0xfa, 0x7c, 0x7c, 0x7c],
    [0x16, 0x7c, 0x7c, 0x7c, 0x16, 0x7c, 0x7c, 0x7c, 0x16, 0x7c, 0x7c, 0x7c, 0x16, 0x7c, 0x7c, 0x7c],
];

// The constant of the S-box in the basis.
const SBOX_CONSTANT: [u8; 16] = [0x7c; 16];

// The lanes of the words one and two places before each word; a lane from 16 on is a lane of the second vector.
const ONE_WORD_BACK: [usize; 16] = [0, 1, 2, 3, 16, 17, 18, 19, 20, 21, 22, 23, 24, 25, 26, 27];

const TWO_WORDS_BACK: [usize; 16] = [0, 1, 2, 3, 4, 5, 6, 7, 16, 17, 18, 19, 20, 21, 22, 23];

// The sums of each word and all words before it.
#[inline(always)]
fn sums(words: u8x16) -> u8x16 {
    let pairs = words ^ u8x16::splat(0).shuffle(words, const { Places::new(ONE_WORD_BACK) });
    pairs ^ u8x16::splat(0).shuffle(pairs, const { Places::new(TWO_WORDS_BACK) })
}

// The words that follow: each is the sum of the word four or fewer places back and the word before it, and the first is the sum
// with `temp`, which stands in all four words.
#[inline(always)]
fn follow(back: u8x16, temp: u8x16) -> u8x16 {
    sums(back) ^ temp
}

// SubWord of the word that stands in all four words, plus a round constant.
#[inline(always)]
fn sub_word(word: u8x16, constant: [u8; 16]) -> u8x16 {
    let (_, once, _) = substitute(word);
    once.sum(u8x16::from_array(constant))
}

// RotWord of the last of four words, in all four words.
#[inline(always)]
fn rotated_last(words: u8x16) -> u8x16 {
    words.swizzle(const { Places::new([13, 14, 15, 12, 13, 14, 15, 12, 13, 14, 15, 12, 13, 14, 15, 12]) })
}

// RotWord of the second of two words, in all four words.
#[inline(always)]
fn rotated_second(words: u8x16) -> u8x16 {
    words.swizzle(const { Places::new([5, 6, 7, 4, 5, 6, 7, 4, 5, 6, 7, 4, 5, 6, 7, 4]) })
}

// The last of four words, in all four words.
#[inline(always)]
fn last_word(words: u8x16) -> u8x16 {
    words.swizzle(const { Places::new([12, 13, 14, 15, 12, 13, 14, 15, 12, 13, 14, 15, 12, 13, 14, 15]) })
}

// Two words and the first two of four words.
#[inline(always)]
fn join_first(two: u8x16, four: u8x16) -> u8x16 {
    two.shuffle(four, const { Places::new([0, 1, 2, 3, 4, 5, 6, 7, 16, 17, 18, 19, 20, 21, 22, 23]) })
}

// The last two of four words and two words.
#[inline(always)]
fn join_last(four: u8x16, two: u8x16) -> u8x16 {
    four.shuffle(two, const { Places::new([8, 9, 10, 11, 12, 13, 14, 15, 16, 17, 18, 19, 20, 21, 22, 23]) })
}

// Four words as a round key between the first and the last.
#[inline(always)]
fn ready(words: u8x16) -> [u8; 16] {
    words.shift_rows().sum(u8x16::from_array(SBOX_CONSTANT)).to_array()
}

// Four words as the last round key.
#[inline(always)]
fn ready_last(words: u8x16) -> [u8; 16] {
    from_basis(words).sum(u8x16::splat(0x63)).to_array()
}

// The sixteen bytes of a key from `at` on.
#[inline(always)]
fn sixteen(key: &[u8], at: usize) -> [u8; 16] {
    let mut bytes = [0; 16];
    bytes.copy_from_slice(&key[at..at + 16]);
    bytes
}

// The eight bytes of a key from 16 on, and zeros.
#[inline(always)]
fn eight(key: &[u8]) -> [u8; 16] {
    let mut bytes = [0; 16];
    bytes[..8].copy_from_slice(&key[16..]);
    bytes
}

// The round keys of a key of four words.
fn expand128(key: &[u8]) -> [[u8; 16]; 15] {
    let bytes = sixteen(key, 0);
    let mut keys = [[0; 16]; 15];
    keys[0] = bytes;
    let mut words = to_basis(u8x16::from_array(bytes));
    for r in 0..9usize {
        let next = follow(words, sub_word(rotated_last(words), ROUND_CONSTANTS[r]));
        keys[r + 1] = ready(next);
        words = next;
    }
    keys[10] = ready_last(follow(words, sub_word(rotated_last(words), ROUND_CONSTANTS[9])));
    keys
}

// The round keys of a key of six words. Three keys are two groups of six words.
fn expand192(key: &[u8]) -> [[u8; 16]; 15] {
    let bytes = sixteen(key, 0);
    let mut keys = [[0; 16]; 15];
    keys[0] = bytes;
    let mut four = to_basis(u8x16::from_array(bytes));
    let mut two = to_basis(u8x16::from_array(eight(key)));
    for r in 0..3usize {
        let next_four = follow(four, sub_word(rotated_second(two), ROUND_CONSTANTS[2 * r]));
        keys[3 * r + 1] = ready(join_first(two, next_four));
        let next_two = follow(two, last_word(next_four));
        keys[3 * r + 2] = ready(join_last(next_four, next_two));
        four = follow(next_four, sub_word(rotated_second(next_two), ROUND_CONSTANTS[2 * r + 1]));
        keys[3 * r + 3] = ready(four);
        two = follow(next_two, last_word(four));
    }
    let next_four = follow(four, sub_word(rotated_second(two), ROUND_CONSTANTS[6]));
    keys[10] = ready(join_first(two, next_four));
    let next_two = follow(two, last_word(next_four));
    keys[11] = ready(join_last(next_four, next_two));
    keys[12] = ready_last(follow(next_four, sub_word(rotated_second(next_two), ROUND_CONSTANTS[7])));
    keys
}

// The round keys of a key of eight words.
fn expand256(key: &[u8]) -> [[u8; 16]; 15] {
    let bytes = sixteen(key, 0);
    let mut keys = [[0; 16]; 15];
    keys[0] = bytes;
    let mut first = to_basis(u8x16::from_array(bytes));
    let mut second = to_basis(u8x16::from_array(sixteen(key, 16)));
    keys[1] = ready(second);
    for r in 0..6usize {
        let next = follow(first, sub_word(rotated_last(second), ROUND_CONSTANTS[r]));
        keys[2 * r + 2] = ready(next);
        let after = follow(second, sub_word(last_word(next), SBOX_CONSTANT));
        keys[2 * r + 3] = ready(after);
        first = next;
        second = after;
    }
    keys[14] = ready_last(follow(first, sub_word(rotated_last(second), ROUND_CONSTANTS[6])));
    keys
}

// The round keys of a key of nk words. They are arrays of bytes, since numbers of 128 bits take longer to make.
pub(in crate::proved::aes) fn expand(key: &[u8], nk: usize) -> [[u8; 16]; 15] {
    if nk == 4 {
        expand128(key)
    } else if nk == 6 {
        expand192(key)
    } else {
        expand256(key)
    }
}
