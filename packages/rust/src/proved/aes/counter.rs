// Made from crates/aes/src/counter.rt by tools/erase: not to be edited.
//! The key streams of AES-GCM and AES-GCM-SIV: the ciphers of counter blocks (SP 800-38D, 6.5; RFC 8452, 4), XORed into a text
//! that comes in pieces.

use crate::kit::byteorder::{BigEndian, ByteOrder, LittleEndian};
use crate::proved::aes::counted_planes::count_blocks;
use crate::proved::aes::first_round::{share_round, sixteen_states};
use crate::proved::aes::key::AesKey;
use crate::proved::aes::key_planes::RoundKeyPlanes;
use crate::proved::aes::planes::Planes;
use crate::proved::octets::{Block, Stream, same, wide, xor_into};
use crate::simd::u8x16;
use core::marker::PhantomData;

// Concatenates four blocks.
fn concat(a: &[u8; 16], b: &[u8; 16], c: &[u8; 16], d: &[u8; 16]) -> [u8; 64] {
    let mut four = [0; 64];
    four.copy_from_slice([*a, *b, *c, *d].as_flattened());
    four
}

// Concatenates two blocks.
fn concat_two(a: &[u8; 16], b: &[u8; 16]) -> [u8; 32] {
    let mut two = [0; 32];
    two.copy_from_slice([*a, *b].as_flattened());
    two
}

// XORs sixteen blocks, given in fours, into 256 bytes. All lengths are constants, so that the blocks stay in registers.
#[inline(always)]
fn xor_fours(bytes: &mut [u8], a: &[u8; 64], b: &[u8; 64], c: &[u8; 64], d: &[u8; 64]) {
    let (front, back) = bytes.split_at_mut(128);
    let (first, second) = front.split_at_mut(64);
    let (third, fourth) = back.split_at_mut(64);
    xor_into(first, a);
    xor_into(second, b);
    xor_into(third, c);
    xor_into(fourth, d);
}

// Block `q` of concatenated blocks.
fn block_of(blocks: &[u8], q: usize) -> Block {
    let mut block = [0; 16];
    block.copy_from_slice(&blocks[q * 16..q * 16 + 16]);
    Block::new(block)
}

/// Which bytes of a block are its counter, and in which order.
pub trait Count {
    const LOW: usize;

    // Whether the first block is made of the nonce alone. Under AES-GCM-SIV it is made of the tag, which is made of secrets: there no
    // branch and no address depends on it.
    const OF_NONCE: bool;

    // Returns the block that is `steps` after `first`.
    fn block(first: &Block, steps: u32) -> Block;

    // A law for the caller's proof: how the low half of the byte at `LOW` counts. The call does nothing.
    fn counts_in_nibble();

    // A law for the caller's proof: how the byte at `LOW` counts. The call does nothing.
    fn counts_in_byte();
}

/// The counter is the last four bytes, most significant byte first (SP 800-38D, 6.2).
pub struct LastFour;

impl Count for LastFour {
    const LOW: usize = 15;

    const OF_NONCE: bool = true;

    fn block(first: &Block, steps: u32) -> Block {
        let mut next = *first.bytes();
        let number = BigEndian::read_u32(&next[12..]);
        BigEndian::write_u32(&mut next[12..], number.wrapping_add(steps));
        Block::new(next)
    }

    fn counts_in_nibble() {}

    fn counts_in_byte() {}
}

/// The counter is the first four bytes, least significant byte first (RFC 8452, 4).
pub struct FirstFour;

impl Count for FirstFour {
    const LOW: usize = 0;

    const OF_NONCE: bool = false;

    fn block(first: &Block, steps: u32) -> Block {
        let mut next = *first.bytes();
        let number = LittleEndian::read_u32(&next);
        LittleEndian::write_u32(&mut next, number.wrapping_add(steps));
        Block::new(next)
    }

    fn counts_in_nibble() {}

    fn counts_in_byte() {}
}

/// A counter block with its cipher, or neither. A stream that begins inside this block need not encrypt it again. The cipher is as
/// secret as the text that is XORed with it.
// It holds no position: the stream compares the block with the one that it wants, so only the cipher has to be right.
#[derive(Clone, Copy)]
pub struct KnownBlock {
    block: [u8; 16],
    cipher: [u8; 16],
    is_known: bool,
}

impl KnownBlock {
    /// No block.
    #[inline(always)]
    pub fn none() -> KnownBlock {
        KnownBlock { block: [0; 16], cipher: [0; 16], is_known: false }
    }

    // Returns the cipher of a block. It is encrypted only if it is not the known one.
    fn encrypt(&self, key: &AesKey, block: &Block) -> Block {
        if self.is_known && same(&self.block, block.bytes()) {
            return Block::new(self.cipher);
        }
        key.encrypt_in_registers(block)
    }
}

// The shortest text, in bytes, for which making the round keys in planes pays.
#[inline(always)]
fn planes_pay() -> usize {
    if wide() { 193 } else { 97 }
}

// A run of four blocks pays for texts longer than this many bytes.
#[inline(always)]
fn four_pay() -> usize {
    if wide() { 32 } else { 48 }
}

// Once the key is in planes, a run of sixteen blocks pays for texts longer than this many bytes. In the default build, where a
// plane takes two registers, it is a run of eight blocks that pays.
#[inline(always)]
fn sixteen_pay() -> usize {
    if wide() { 96 } else { 64 }
}

// Up to this many bytes, a run of eight blocks followed by shorter runs takes no longer than one run of sixteen.
#[inline(always)]
fn eight_pay() -> usize {
    if wide() { 0 } else { 192 }
}

// For more runs of sixteen blocks than this it pays to share their first round.
#[inline(always)]
fn shared_pay() -> usize {
    if wide() { 3 } else { 2 }
}

// How many of the remaining bytes the next run masks.
#[inline(always)]
fn run_of(left: usize) -> usize {
    left.min(if left > eight_pay() { 256 } else { 128 })
}

// The state of a stream without its key: the first block; the number of blocks of which bytes were used, modulo 2^32; and the
// cipher of the last of these, with the number of its used bytes, or 0 if all are used.
struct Counter<C> {
    first: Block,
    block_count: u32,
    mask: Block,
    used: usize,
    way: PhantomData<C>,
}

impl<C: Count> Counter<C> {
    // The state at the beginning of the stream whose first block is the cipher of `first`.
    #[inline(always)]
    fn new(first: &Block) -> Counter<C> {
        Counter { first: *first, block_count: 0, mask: *first, used: 0, way: PhantomData }
    }

    // The state of the stream after its first `position` bytes.
    fn at(key: &AesKey, first: &Block, position: u64, known: &KnownBlock) -> Counter<C> {
        let used = (position % 16) as usize;
        let mask = if used == 0 {
            *first
        } else {
            known.encrypt(key, &C::block(first, (position / 16 % 0x1_0000_0000) as u32))
        };
        Counter {
            first: *first,
            block_count: ((position + 15) / 16 % 0x1_0000_0000) as u32,
            mask,
            used,
            way: PhantomData,
        }
    }

    // XORs in the next bytes of the current mask.
    fn mask_rest(&mut self, bytes: &mut [u8]) {
        let end = self.used + bytes.len();
        xor_into(bytes, &self.mask.bytes()[self.used..end]);
        self.used = end % 16;
    }

    // XORs in the first bytes of the next blocks, whose ciphers are `masks`. Every earlier block is used up.
    #[inline(always)]
    fn mask_with(&mut self, masks: &[u8], bytes: &mut [u8]) {
        let count = bytes.len();
        let blocks = ((count + 15) / 16 % 0x1_0000_0000) as u32;
        self.block_count = self.block_count.wrapping_add(blocks);
        self.used = count % 16;
        if count == masks.len() {
            xor_into(bytes, masks);
        } else {
            self.mask = block_of(masks, count / 16);
            xor_into(bytes, &masks[..count]);
        }
    }

    // XORs in the first bytes of the next block. Every earlier block is used up.
    fn mask_block(&mut self, key: &AesKey, bytes: &mut [u8]) {
        let mask = key.encrypt_in_registers(&C::block(&self.first, self.block_count));
        self.mask_with(mask.bytes(), bytes);
    }

    // The next four counter blocks.
    #[inline(always)]
    fn four(&self) -> [u8; 64] {
        let first = C::block(&self.first, self.block_count);
        let second = C::block(&self.first, self.block_count.wrapping_add(1));
        let third = C::block(&self.first, self.block_count.wrapping_add(2));
        let fourth = C::block(&self.first, self.block_count.wrapping_add(3));
        concat(first.bytes(), second.bytes(), third.bytes(), fourth.bytes())
    }

    // The next two counter blocks.
    #[inline(always)]
    fn two(&self) -> [u8; 32] {
        let first = C::block(&self.first, self.block_count);
        let second = C::block(&self.first, self.block_count.wrapping_add(1));
        concat_two(first.bytes(), second.bytes())
    }

    // The next sixteen counter blocks, in planes. Up to the block where the low half of the byte at `LOW` passes 15 they differ
    // only in that half, and so do the blocks from there on. So two blocks and a number determine all sixteen.
    #[inline(always)]
    fn sixteen(&self) -> Planes {
        C::counts_in_nibble();
        let low = u32::from(self.first.bytes()[C::LOW]).wrapping_add(self.block_count) % 16;
        let whole = self.block_count.wrapping_sub(low);
        count_blocks(
            C::block(&self.first, whole).bytes(),
            C::block(&self.first, whole.wrapping_add(16)).bytes(),
            low,
            C::LOW,
        )
    }

    // XORs in the first bytes of the next two blocks. Every earlier block is used up.
    fn mask_two(&mut self, key: &AesKey, bytes: &mut [u8]) {
        let masks = key.encrypt_two(&self.two());
        self.mask_with(&masks, bytes);
    }

    // XORs in the first bytes of the next four blocks. Every earlier block is used up.
    fn mask_four(&mut self, key: &AesKey, bytes: &mut [u8]) {
        let masks = key.encrypt_four(&self.four());
        self.mask_with(&masks, bytes);
    }

    // XORs in the first bytes of the next eight blocks. Every earlier block is used up. Inlined, it would slow down runs of
    // sixteen blocks.
    #[inline(never)]
    fn mask_eight(&mut self, key: &AesKey, words: &RoundKeyPlanes, bytes: &mut [u8]) {
        let (a, b) = key.encrypt_eight(words, self.sixteen());
        self.mask_with([a, b].as_flattened(), bytes);
    }

    // XORs in the first bytes of the next sixteen blocks. Every earlier block is used up. Inlined, it would make whole runs
    // reserve stack for its blocks.
    #[inline(never)]
    fn mask_part(&mut self, key: &AesKey, words: &RoundKeyPlanes, bytes: &mut [u8]) {
        let start = key.add_first_key(words, self.sixteen());
        let (a, b, c, d) = key.encrypt_sixteen(words, start, 0);
        self.mask_with([a, b, c, d].as_flattened(), bytes);
    }

    // XORs in the next sixteen blocks, whose states after `from` rounds are in planes. Every earlier block is used up.
    #[inline(always)]
    fn mask_states(&mut self, key: &AesKey, words: &RoundKeyPlanes, states: Planes, from: usize, bytes: &mut [u8]) {
        let (a, b, c, d) = key.encrypt_sixteen(words, states, from);
        self.block_count = self.block_count.wrapping_add(16);
        xor_fours(bytes, &a, &b, &c, &d);
    }

    // XORs in the next blocks, in runs of sixteen that share their first round. Every earlier block is used up. Inlined, it would make
    // short messages reserve stack for the states.
    #[inline(never)]
    fn mask_shared(&mut self, key: &AesKey, words: &RoundKeyPlanes, bytes: &mut [u8]) {
        C::counts_in_byte();
        let block = C::block(&self.first, self.block_count);
        let mut base = [u8x16::splat(0); 8];
        let mut columns = [[[0; 16]; 4]; 8];
        share_round(&mut base, &mut columns, key, words, block.bytes(), C::LOW);
        let mut done = 0;
        while done < bytes.len() {
            let states = sixteen_states(base, &columns, done / 256);
            self.mask_states(key, words, states, 1, &mut bytes[done..done + 256]);
            done += 256;
        }
    }

    // XORs in a run as long as `next_run` says: the first bytes of the next sixteen blocks, or more whole runs of sixteen that can share
    // their first round. Every earlier block is used up.
    fn mask_run(&mut self, key: &AesKey, words: &RoundKeyPlanes, bytes: &mut [u8]) {
        // The length of a whole run is a constant here, so it is XORed from registers.
        if bytes.len() == 256 {
            let start = key.add_first_key(words, self.sixteen());
            self.mask_states(key, words, start, 0, bytes);
            return;
        }
        if bytes.len() > 256 {
            self.mask_shared(key, words, bytes);
            return;
        }
        if !wide() && bytes.len() <= 128 {
            self.mask_eight(key, words, bytes);
            return;
        }
        self.mask_part(key, words, bytes);
    }

    // How many of the remaining bytes `mask_run` masks next: more than one run only before the counter's byte at `LOW` passes 255,
    // and only where a branch may depend on that byte.
    fn next_run(&self, left: usize) -> usize {
        if !C::OF_NONCE {
            return run_of(left);
        }
        C::counts_in_byte();
        let block = C::block(&self.first, self.block_count);
        let before = 256 - usize::from(block.bytes()[C::LOW]);
        let runs = (before / 16).min(8).min(left / 256);
        if runs > shared_pay() {
            return 256 * runs;
        }
        run_of(left)
    }

    // XORs in runs of sixteen blocks while they pay, the last one perhaps in part, and returns how many bytes it masked.
    // Inlined, its frame would slow down short messages.
    #[inline(never)]
    fn apply_sixteens(&mut self, key: &AesKey, words: &RoundKeyPlanes, bytes: &mut [u8]) -> usize {
        let mut done = 0;
        while bytes.len() - done > sixteen_pay() {
            let next = self.next_run(bytes.len() - done);
            self.mask_run(key, words, &mut bytes[done..done + next]);
            done += next;
        }
        done
    }

    // XORs in runs of sixteen blocks with planes that are made here: only this call has them on its stack.
    #[inline(never)]
    fn apply_sixteens_anew(&mut self, key: &AesKey, bytes: &mut [u8]) -> usize {
        let mut words = [[0; 8]; 15];
        key.make_planes(&mut words);
        self.apply_sixteens(key, &words, bytes)
    }

    // XORs in runs of sixteen blocks, with the planes that are lent or with new ones.
    #[inline(always)]
    fn apply_sixteens_by(&mut self, key: &AesKey, planes: Option<&RoundKeyPlanes>, bytes: &mut [u8]) -> usize {
        match planes {
            Some(words) => self.apply_sixteens(key, words, bytes),
            None => self.apply_sixteens_anew(key, bytes),
        }
    }

    // XORs in runs of four blocks while they pay, the last one perhaps in part, and returns how many bytes it masked.
    fn apply_fours(&mut self, key: &AesKey, bytes: &mut [u8]) -> usize {
        if bytes.len() <= four_pay() {
            return 0;
        }
        let mut done = 0;
        while bytes.len() - done > four_pay() {
            let next = (bytes.len() - done).min(64);
            self.mask_four(key, &mut bytes[done..done + next]);
            done += next;
        }
        done
    }

    // XORs in runs of sixteen and then of four blocks, and returns how many bytes it masked.
    fn apply_runs(&mut self, key: &AesKey, planes: Option<&RoundKeyPlanes>, bytes: &mut [u8]) -> usize {
        // A short text returns here, without the call: `apply_fours` would mask nothing.
        if bytes.len() <= four_pay() {
            return 0;
        }
        if bytes.len() < planes_pay() {
            return self.apply_fours(key, bytes);
        }
        let done = self.apply_sixteens_by(key, planes, bytes);
        if done == bytes.len() {
            return done;
        }
        done + self.apply_fours(key, &mut bytes[done..])
    }

    // XORs in runs of blocks, then pairs and single blocks, the last one perhaps in part. Every earlier block is used up.
    fn apply_blocks(&mut self, key: &AesKey, planes: Option<&RoundKeyPlanes>, bytes: &mut [u8]) {
        let mut done = self.apply_runs(key, planes, bytes);
        while bytes.len() - done > 16 {
            let next = (bytes.len() - done).min(32);
            self.mask_two(key, &mut bytes[done..done + next]);
            done += next;
        }
        while done < bytes.len() {
            let next = (bytes.len() - done).min(16);
            self.mask_block(key, &mut bytes[done..done + next]);
            done += next;
        }
    }

    // XORs in the next bytes.
    fn apply(&mut self, key: &AesKey, planes: Option<&RoundKeyPlanes>, bytes: &mut [u8]) {
        if self.used == 0 {
            self.apply_blocks(key, planes, bytes);
        } else if bytes.len() <= 16 - self.used {
            self.mask_rest(bytes);
        } else {
            let left = 16 - self.used;
            self.mask_rest(&mut bytes[..left]);
            self.apply_blocks(key, planes, &mut bytes[left..]);
        }
    }
}

/// AES in counter mode: the stream of the ciphers of counter blocks, under a key that it borrows. `C` says which bytes of a
/// block are the counter.
pub struct Ctr<'k, C> {
    key: &'k AesKey,
    // The round keys in planes, if they are lent. Without them each call that needs them makes them.
    planes: Option<&'k RoundKeyPlanes>,
    counter: Counter<C>,
}

/// The stream of AES-GCM: the ciphers of blocks whose last four bytes count, most significant byte first, modulo 2^32
/// (SP 800-38D, 6.5). In AES-GCM the first block is made from the nonce, and two tags under one nonce also give away the hash
/// key, with which anyone can forge messages.
pub type CtrBe<'k> = Ctr<'k, LastFour>;

/// The stream of AES-GCM-SIV: the ciphers of blocks whose first four bytes count, least significant byte first, modulo 2^32
/// (RFC 8452, 4). In AES-GCM-SIV the first block is made from the tag: under a repeated nonce it is the same only if the text
/// and the associated data are the same, and gives away only that.
pub type CtrLe<'k> = Ctr<'k, FirstFour>;

impl<'k, C: Count> Ctr<'k, C> {
    /// Makes the stream whose first block is the cipher of `first`, under a key that it borrows.
    ///
    /// A counter block must never be used twice under one key: `first` and the blocks counted from it belong to this stream
    /// alone. Two texts that are XORed with the same part of a stream give away their XOR. [`CtrBe`] and [`CtrLe`] say what
    /// else a repeat gives away.
    #[inline(always)]
    pub fn new(key: &'k AesKey, first: &Block) -> Ctr<'k, C> {
        Ctr { key, planes: None, counter: Counter::new(first) }
    }

    /// Makes the stream whose first block is the cipher of `first`, after its first `position` bytes, with a block whose cipher
    /// under this key is known: if `position` is inside that block, nothing is encrypted. The rest must never be used twice: see
    /// [`Ctr::new`].
    pub fn at_known(key: &'k AesKey, first: &Block, position: u64, known: &KnownBlock) -> Ctr<'k, C> {
        let counter = Counter::at(key, first, position, known);
        Ctr { key, planes: None, counter }
    }

    /// Makes the stream whose first block is the cipher of `first`, after its first `position` bytes, with the planes that
    /// [`AesKey::make_planes`] made: for a stream that comes in many pieces. The rest must never be used twice: see [`Ctr::new`].
    pub fn in_planes(key: &'k AesKey, planes: &'k RoundKeyPlanes, first: &Block, position: u64) -> Ctr<'k, C> {
        let counter = Counter::at(key, first, position, &KnownBlock::none());
        Ctr { key, planes: Some(planes), counter }
    }

    /// Sets `known` to the block that the stream stands inside. If it stands between two blocks, `known` does not change.
    #[inline(always)]
    pub fn set_known(&self, known: &mut KnownBlock) {
        let counter = &self.counter;
        if counter.used == 0 {
            return;
        }
        let block = C::block(&counter.first, counter.block_count.wrapping_sub(1));
        *known = KnownBlock { block: *block.bytes(), cipher: *counter.mask.bytes(), is_known: true };
    }

    /// XORs the next bytes of the stream into `bytes`, of any length. The result does not depend on how a text is split into
    /// calls. There is no fault: after 2^32 blocks the stream begins again (SP 800-38D, 6.5; RFC 8452, 4), so a caller has to
    /// stop before that.
    pub fn apply(&mut self, bytes: &mut [u8]) {
        self.counter.apply(self.key, self.planes, bytes);
    }
}

impl<'k, C: Count> Stream for Ctr<'k, C> {
    fn apply_next(&mut self, bytes: &mut [u8]) {
        self.apply(bytes);
    }
}
