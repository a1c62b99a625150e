// Made from crates/aes/src/key.rt by tools/erase: not to be edited.
//! An expanded key, and the cipher under it (FIPS 197, 5.1 and 5.2), on one block, or two, four, eight or sixteen at once.

use crate::proved::aes::columns::{add_key, last_round, load, round, store};
use crate::proved::aes::inverse_key::InverseKey;
use crate::proved::aes::inverse_lanes::unshift_rows;
use crate::proved::aes::key_planes::{KeyPlanes, RoundKeyPlanes, ready_planes, unpack};
use crate::proved::aes::lanes;
use crate::proved::aes::lanes::{Lanes, from_basis};
use crate::proved::aes::planes;
use crate::proved::aes::planes::{BitPlanes, HalfPlanes, Planes, both_halves, lower, upper};
use crate::proved::aes::schedule::expand;
use crate::proved::octets::{Block, Fault, Key16, Key24, Key32, wide};
use crate::simd::{u8x16, u8x32, u8x64};

/// A key of AES with its round keys (FIPS 197, 5.2). Contracts see the key's bytes: 16, 24 or 32.
///
/// The tables, of 16 bytes, are vectors, as are the bytes that index them: no branch and no address in memory depends on a byte of
/// the key or of a block. `encrypt` alone is not constant time.
#[derive(Clone, Copy)]
pub struct AesKey {
    // The round keys as the rounds in lanes take them, and zeros after them.
    keys: [[u8; 16]; 15],
    size: usize,
}

impl AesKey {
    /// Makes the key of AES-128 with these 16 bytes. Its cipher has 10 rounds (FIPS 197, 5).
    pub fn new128(key: &Key16) -> AesKey {
        AesKey { keys: expand(key.bytes(), 4), size: 4 }
    }

    /// Makes the key of AES-192 with these 24 bytes. Its cipher has 12 rounds (FIPS 197, 5).
    pub fn new192(key: &Key24) -> AesKey {
        AesKey { keys: expand(key.bytes(), 6), size: 6 }
    }

    /// Makes the key of AES-256 with these 32 bytes. Its cipher has 14 rounds (FIPS 197, 5).
    pub fn new256(key: &Key32) -> AesKey {
        AesKey { keys: expand(key.bytes(), 8), size: 8 }
    }

    /// Makes the key with these bytes: 16, 24 or 32. Any other length is `KeyLength`, the only fault (FIPS 197, 5).
    pub fn from_slice(key: &[u8]) -> Result<AesKey, Fault> {
        let size = match key.len() {
            16 => 4,
            24 => 6,
            32 => 8,
            _ => return Err(Fault::KeyLength),
        };
        Ok(AesKey { keys: expand(key, size), size })
    }

    /// Makes the key with these bytes, 16, 24 or 32, as the caller shows (FIPS 197, 5). It is made in its place, while one that is taken
    /// out of a `Result` is copied.
    #[inline(always)]
    pub fn expanded(key: &[u8]) -> AesKey {
        let size = key.len() / 4;
        AesKey { keys: expand(key, size), size }
    }

    /// Returns the round keys in the form in which the rounds take them, and zeros after them, for a caller that stores plain
    /// bytes. The first round key is as the standard has it (FIPS 197, 5.2).
    pub fn ready_keys(&self) -> [[u8; 16]; 15] {
        self.keys
    }

    /// Makes the key with these bytes, for which `ready_keys` returned these round keys. The caller shows that they are its
    /// round keys.
    // Inlined, so that the keys are copied once.
    #[inline(always)]
    pub fn from_ready_keys(keys: &[[u8; 16]; 15], key: &[u8]) -> AesKey {
        AesKey { keys: *keys, size: key.len() / 4 }
    }

    // The number of rounds (FIPS 197, 5).
    #[inline(always)]
    pub(in crate::proved::aes) fn rounds(&self) -> usize {
        self.size + 6
    }

    // A round key as the standard has it (FIPS 197, 5.2).
    #[inline(always)]
    pub(in crate::proved::aes) fn plain_key(&self, n: usize) -> [u8; 16] {
        let key = u8x16::from_array(self.keys[n]);
        if n == 0 {
            return key.to_array();
        }
        if n == self.size + 6 {
            return key.sum(u8x16::splat(0x63)).to_array();
        }
        from_basis(unshift_rows(key.sum(u8x16::splat(0x7c)))).to_array()
    }

    // The four words of a round key, as columns.
    #[inline(always)]
    fn round_key(&self, n: usize) -> [u32; 4] {
        load(&self.plain_key(n))
    }

    /// Returns the block of 16 bytes that the cipher takes `block` to (FIPS 197, 5.1), by the table of [`round`](crate::proved::aes::round).
    ///
    /// Not constant time: each round looks up a table of 256 words, 1 KiB, by the 16 bytes of its state; the first state is the
    /// block XORed with a round key. Code on the same processor may learn from the cache which entries were read, and from these
    /// the key. `encrypt_in_registers` returns the same block, faster.
    pub fn encrypt(&self, block: &Block) -> Block {
        let count = self.size + 6;
        let mut state = add_key(load(block.bytes()), self.round_key(0));
        for done in 0..count - 1 {
            let next = round(state, self.round_key(done + 1));
            state = next;
        }
        Block::new(store(last_round(state, self.round_key(count))))
    }

    // Encrypts one, two or four blocks in the lanes of a vector.
    #[inline(always)]
    fn encrypt_lanes<V: Lanes>(&self, blocks: V) -> V {
        let count = self.size + 6;
        let mut state = lanes::first(blocks, self.keys[0]);
        for done in 0..count - 1 {
            let next = lanes::round(state, self.keys[done + 1]);
            state = next;
        }
        lanes::last(state, self.keys[count])
    }

    /// Returns the block of 16 bytes that the cipher takes `block` to, as `encrypt` does (FIPS 197, 5.1).
    #[inline(always)]
    pub fn encrypt_in_registers(&self, block: &Block) -> Block {
        Block::new(self.encrypt_lanes(u8x16::from_array(*block.bytes())).to_array())
    }

    /// Returns the ciphers of two concatenated blocks, each of 16 bytes (FIPS 197, 5.1).
    pub fn encrypt_two(&self, blocks: &[u8; 32]) -> [u8; 32] {
        self.encrypt_lanes(u8x32::from_array(*blocks)).to_array()
    }

    /// Returns the ciphers of four concatenated blocks, each of 16 bytes (FIPS 197, 5.1).
    pub fn encrypt_four(&self, blocks: &[u8; 64]) -> [u8; 64] {
        self.encrypt_lanes(u8x64::from_array(*blocks)).to_array()
    }

    /// Writes the round keys as planes of bits, for [`Ctr::in_planes`](crate::proved::aes::Ctr::in_planes). They are as secret as the key.
    pub fn make_planes(&self, keys: &mut RoundKeyPlanes) {
        ready_planes(keys, &self.keys, self.size + 6);
    }

    // Sixteen blocks in planes plus the first round key (FIPS 197, 5.1).
    #[inline(always)]
    pub(in crate::proved::aes) fn add_first_key(&self, keys: &[KeyPlanes; 15], blocks: Planes) -> Planes {
        blocks.add(Planes::from_half(unpack(&keys[0])))
    }

    // The ciphers of eight blocks in planes, in place, from the states after `from` rounds. Both halves of sixteen blocks call it.
    fn encrypt_half(&self, keys: &[KeyPlanes; 15], planes: &mut HalfPlanes, from: usize) {
        let count = self.size + 6;
        let mut state = *planes;
        for done in from..count - 1 {
            let next = planes::round(state, unpack(&keys[done + 1]));
            state = next;
        }
        *planes = planes::last_round(state, unpack(&keys[count]));
    }

    // The ciphers of sixteen blocks in planes, from the states after `from` rounds, all sixteen in each step.
    #[inline(always)]
    fn encrypt_whole(&self, keys: &[KeyPlanes; 15], start: Planes, from: usize) -> Planes {
        let count = self.size + 6;
        let mut state = start;
        for done in from..count - 1 {
            let next = planes::round(state, Planes::from_half(unpack(&keys[done + 1])));
            state = next;
        }
        planes::last_round(state, Planes::from_half(unpack(&keys[count])))
    }

    // The ciphers of sixteen blocks in planes, from the states after `from` rounds. Where a plane takes two registers, one half is
    // encrypted after the other, since a round of eight blocks needs all registers.
    #[inline(always)]
    pub(in crate::proved::aes) fn encrypt_planes(&self, keys: &[KeyPlanes; 15], start: Planes, from: usize) -> Planes {
        if wide() {
            return self.encrypt_whole(keys, start, from);
        }
        let mut first = lower(start);
        let mut second = upper(start);
        self.encrypt_half(keys, &mut first, from);
        self.encrypt_half(keys, &mut second, from);
        both_halves(first, second)
    }

    // Returns the ciphers of sixteen blocks, four in each array, from the states after `from` rounds in planes.
    #[inline(always)]
    pub(in crate::proved::aes) fn encrypt_sixteen(
        &self,
        keys: &[KeyPlanes; 15],
        start: Planes,
        from: usize,
    ) -> ([u8; 64], [u8; 64], [u8; 64], [u8; 64]) {
        let (first, second, third, fourth) = planes::store(self.encrypt_planes(keys, start, from));
        (first.to_array(), second.to_array(), third.to_array(), fourth.to_array())
    }

    // Returns the ciphers of the first eight of sixteen blocks in planes, four in each array.
    #[inline(always)]
    pub(in crate::proved::aes) fn encrypt_eight(&self, keys: &[KeyPlanes; 15], start: Planes) -> ([u8; 64], [u8; 64]) {
        let mut half = lower(self.add_first_key(keys, start));
        self.encrypt_half(keys, &mut half, 0);
        // The other lanes are not used, so LLVM leaves out the steps that store them.
        let (first, second, _, _) = planes::store(Planes::from_half(half));
        (first.to_array(), second.to_array())
    }

    /// Returns this key made ready for `InverseKey::decrypt` (FIPS 197, 5.3.5).
    pub fn inverse(&self) -> InverseKey {
        InverseKey::new(self)
    }

    /// Returns the block of 16 bytes that the cipher takes to `block`; it is the only one (FIPS 197, 5.3). To decrypt many
    /// blocks, make the `inverse` once.
    pub fn decrypt(&self, block: &Block) -> Block {
        self.inverse().decrypt(block)
    }
}
