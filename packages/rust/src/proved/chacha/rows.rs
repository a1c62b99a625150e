// Made from crates/chacha/src/rows.rt by tools/erase: not to be edited.
//! Blocks of ChaCha20 by the rows of their states (RFC 8439, 2.3): a vector for a row, a lane for a column. A set of rows has one
//! block in vectors of four words, or two side by side in vectors of eight. Sets are computed together, since each round of a set
//! waits for the round before: of pairs, one set takes 310 cycles with AVX2, two take 410, three 525. A reader of the crate begins
//! here.

use crate::proved::chacha::lanes::{bytes_of, bytes_of_eight, half_quarter, high_halves, low_halves, sum};
use crate::proved::chacha::state::initial_state;
use crate::proved::octets::{Idle, Key32, Nonce, Work, wide};
use crate::simd::{Places, u32x4, u32x8};

// The states of blocks, side by side in four rows.
pub(in crate::proved::chacha) trait Rows: Copy {
    const COUNT: u32;

    // Returns the states from which the blocks with the counters `counter`, `counter + 1` and so on start.
    fn starts_at(key: &Key32, counter: u32, nonce: &Nonce) -> Self;

    // Half of the quarter round on each column, which is a lane (RFC 8439, 2.3): the first half, which rotates by 16 and 12, or the
    // second, by 8 and 7.
    fn half_columns(&mut self, n: u32, m: u32);

    // Half of the quarter round on each diagonal, which is moved into a lane and back (RFC 8439, 2.3). The words of the second row
    // stay, since a quarter round makes them last. LLVM leaves out what is moved back and moved again.
    fn half_diagonals(&mut self, n: u32, m: u32);

    // Adds the start to each state and writes the sums, serialized one state after the other.
    fn put_sums(&self, start: &Self, out: &mut [u8]);
}

// The row with its words moved one lane down.
#[inline(always)]
fn moved_by_one(row: u32x4) -> u32x4 {
    row.swizzle(const { Places::new([1, 2, 3, 0]) })
}

// The row with its words moved two lanes down.
#[inline(always)]
fn moved_by_two(row: u32x4) -> u32x4 {
    row.swizzle(const { Places::new([2, 3, 0, 1]) })
}

// The row with its words moved three lanes down.
#[inline(always)]
fn moved_by_three(row: u32x4) -> u32x4 {
    row.swizzle(const { Places::new([3, 0, 1, 2]) })
}

// Serializes the words of a row, each with its lowest byte first.
#[inline(always)]
fn serialized_row(row: u32x4) -> [u8; 16] {
    bytes_of(row)
}

// Adds the words of two rows and serializes the sums.
#[inline(always)]
fn serialized_sum(row: u32x4, start: u32x4) -> [u8; 16] {
    serialized_row(sum(row, start))
}

// Copies bytes into `out`, starting at offset `at`.
#[inline(always)]
fn put(out: &mut [u8], at: usize, bytes: &[u8]) {
    out[at..at + bytes.len()].copy_from_slice(bytes);
}

// One block.
impl Rows for [u32x4; 4] {
    const COUNT: u32 = 1;

    #[inline(always)]
    fn starts_at(key: &Key32, counter: u32, nonce: &Nonce) -> [u32x4; 4] {
        let words = initial_state(key, counter, nonce);
        [
            u32x4::from_array([words[0], words[1], words[2], words[3]]),
            u32x4::from_array([words[4], words[5], words[6], words[7]]),
            u32x4::from_array([words[8], words[9], words[10], words[11]]),
            u32x4::from_array([words[12], words[13], words[14], words[15]]),
        ]
    }

    #[inline(always)]
    fn half_columns(&mut self, n: u32, m: u32) {
        half_quarter(self, n, m);
    }

    #[inline(always)]
    fn half_diagonals(&mut self, n: u32, m: u32) {
        let mut moved = [moved_by_three(self[0]), self[1], moved_by_one(self[2]), moved_by_two(self[3])];
        half_quarter(&mut moved, n, m);
        let next = [moved_by_one(moved[0]), moved[1], moved_by_three(moved[2]), moved_by_two(moved[3])];
        *self = next;
    }

    #[inline(always)]
    fn put_sums(&self, start: &[u32x4; 4], out: &mut [u8]) {
        put(out, 0, &serialized_sum(self[0], start[0]));
        put(out, 16, &serialized_sum(self[1], start[1]));
        put(out, 32, &serialized_sum(self[2], start[2]));
        put(out, 48, &serialized_sum(self[3], start[3]));
    }
}

// Each half of the row with its words moved one lane down.
#[inline(always)]
fn halves_moved_by_one(row: u32x8) -> u32x8 {
    row.swizzle(const { Places::new([1, 2, 3, 0, 5, 6, 7, 4]) })
}

// Each half of the row with its words moved two lanes down.
#[inline(always)]
fn halves_moved_by_two(row: u32x8) -> u32x8 {
    row.swizzle(const { Places::new([2, 3, 0, 1, 6, 7, 4, 5]) })
}

// Each half of the row with its words moved three lanes down.
#[inline(always)]
fn halves_moved_by_three(row: u32x8) -> u32x8 {
    row.swizzle(const { Places::new([3, 0, 1, 2, 7, 4, 5, 6]) })
}

// Writes the words of both vectors, each word with its lowest byte first.
#[inline(always)]
fn put_two(out: &mut [u8], first: u32x8, second: u32x8) {
    let (front, back) = out.split_at_mut(32);
    front.copy_from_slice(&bytes_of_eight(first).to_array());
    back.copy_from_slice(&bytes_of_eight(second).to_array());
}

// Two blocks, one in each half of the rows.
impl Rows for [u32x8; 4] {
    const COUNT: u32 = 2;

    #[inline(always)]
    fn starts_at(key: &Key32, counter: u32, nonce: &Nonce) -> [u32x8; 4] {
        let w = initial_state(key, counter, nonce);
        [
            u32x8::from_array([w[0], w[1], w[2], w[3], w[0], w[1], w[2], w[3]]),
            u32x8::from_array([w[4], w[5], w[6], w[7], w[4], w[5], w[6], w[7]]),
            u32x8::from_array([w[8], w[9], w[10], w[11], w[8], w[9], w[10], w[11]]),
            u32x8::from_array([w[12], w[13], w[14], w[15], counter + 1, w[13], w[14], w[15]]),
        ]
    }

    #[inline(always)]
    fn half_columns(&mut self, n: u32, m: u32) {
        half_quarter(self, n, m);
    }

    #[inline(always)]
    fn half_diagonals(&mut self, n: u32, m: u32) {
        let mut moved =
            [halves_moved_by_three(self[0]), self[1], halves_moved_by_one(self[2]), halves_moved_by_two(self[3])];
        half_quarter(&mut moved, n, m);
        let next =
            [halves_moved_by_one(moved[0]), moved[1], halves_moved_by_three(moved[2]), halves_moved_by_two(moved[3])];
        *self = next;
    }

    #[inline(always)]
    fn put_sums(&self, start: &[u32x8; 4], out: &mut [u8]) {
        let a = sum(self[0], start[0]);
        let b = sum(self[1], start[1]);
        let c = sum(self[2], start[2]);
        let d = sum(self[3], start[3]);
        let (first, second) = out.split_at_mut(64);
        put_two(first, low_halves(a, b), low_halves(c, d));
        put_two(second, high_halves(a, b), high_halves(c, d));
    }
}

// Writes the blocks of one set from a counter on, and offers a place for a step of other work in each round. A step is a branch,
// and it stands between the halves of a round for the reason that `ten_rounds` of `lanes` gives.
#[inline(always)]
fn put_set<R: Rows, W: Work>(key: &Key32, counter: u32, nonce: &Nonce, out: &mut [u8], work: &mut W) {
    let start = R::starts_at(key, counter, nonce);
    let mut x = start;
    let mut own = *work;
    for _round in 0..10u32 {
        x.half_columns(16, 12);
        own.step(0);
        x.half_columns(8, 7);
        x.half_diagonals(16, 12);
        own.step(0);
        x.half_diagonals(8, 7);
    }
    *work = own;
    x.put_sums(&start, out);
}

// Writes the blocks of two sets from a counter on, which are computed together, and offers a place for a step of other work in
// each round. It is a separate function, since its frame would slow down its callers.
#[inline(never)]
pub(in crate::proved::chacha) fn put_two_sets<R: Rows, W: Work>(
    key: &Key32,
    counter: u32,
    nonce: &Nonce,
    out: &mut [u8],
    work: &mut W,
) {
    let start_x = R::starts_at(key, counter, nonce);
    let start_y = R::starts_at(key, counter + R::COUNT, nonce);
    let mut x = start_x;
    let mut y = start_y;
    let mut own = *work;
    for _round in 0..10u32 {
        x.half_columns(16, 12);
        y.half_columns(16, 12);
        own.step(0);
        x.half_columns(8, 7);
        y.half_columns(8, 7);
        x.half_diagonals(16, 12);
        y.half_diagonals(16, 12);
        own.step(0);
        x.half_diagonals(8, 7);
        y.half_diagonals(8, 7);
    }
    *work = own;
    let (front, back) = out.split_at_mut(out.len() / 2);
    x.put_sums(&start_x, front);
    y.put_sums(&start_y, back);
}

// Writes the blocks of three sets from a counter on, which are computed together, and offers a place for a step of other work in
// each round. It is a separate function, since its frame would slow down its callers.
#[inline(never)]
pub(in crate::proved::chacha) fn put_three_sets<R: Rows, W: Work>(
    key: &Key32,
    counter: u32,
    nonce: &Nonce,
    out: &mut [u8],
    work: &mut W,
) {
    let start_x = R::starts_at(key, counter, nonce);
    let start_y = R::starts_at(key, counter + R::COUNT, nonce);
    let start_z = R::starts_at(key, counter + 2 * R::COUNT, nonce);
    let mut x = start_x;
    let mut y = start_y;
    let mut z = start_z;
    let mut own = *work;
    for _round in 0..10u32 {
        x.half_columns(16, 12);
        y.half_columns(16, 12);
        z.half_columns(16, 12);
        own.step(0);
        x.half_columns(8, 7);
        y.half_columns(8, 7);
        z.half_columns(8, 7);
        x.half_diagonals(16, 12);
        y.half_diagonals(16, 12);
        z.half_diagonals(16, 12);
        own.step(0);
        x.half_diagonals(8, 7);
        y.half_diagonals(8, 7);
        z.half_diagonals(8, 7);
    }
    *work = own;
    let (front, rest) = out.split_at_mut(out.len() / 3);
    let (middle, back) = rest.split_at_mut(rest.len() / 2);
    x.put_sums(&start_x, front);
    y.put_sums(&start_y, middle);
    z.put_sums(&start_z, back);
}

// Writes the two blocks from a counter on, with AVX2 by one set, and offers 20 places for steps of other work.
#[inline(never)]
pub(in crate::proved::chacha) fn put_two_blocks<W: Work>(
    key: &Key32,
    counter: u32,
    nonce: &Nonce,
    out: &mut [u8],
    work: &mut W,
) {
    if wide() {
        put_set::<[u32x8; 4], W>(key, counter, nonce, out, work);
    } else {
        put_two_sets::<[u32x4; 4], W>(key, counter, nonce, out, work);
    }
}

// The block of a key, a counter and a nonce. It is a function of its own, since the proof knows of a result that it is bytes.
#[inline(always)]
fn block_by_rows(key: &Key32, counter: u32, nonce: &Nonce) -> [u8; 64] {
    let mut out = [0; 64];
    put_set::<[u32x4; 4], Idle>(key, counter, nonce, &mut out, &mut Idle::new());
    out
}

/// Returns the block of 64 bytes of a key, a counter and a nonce (RFC 8439, 2.3).
///
/// A block must never be used twice: under one key each pair of a nonce and a counter masks at most 64 bytes. Two texts that
/// are XORed with one block give away their XOR, and whoever knows one of them knows the block and the other.
pub fn block(key: &Key32, counter: u32, nonce: &Nonce) -> [u8; 64] {
    block_by_rows(key, counter, nonce)
}
