// Made from crates/aead/src/gcm.rt by tools/erase: not to be edited.
//! The cipher AES-GCM (SP 800-38D, 7), with nonces of 12 bytes.
//!
//! A short text goes its own way: `seal_short` and `open_short` encrypt J0 and the counter blocks in one call. All other texts go
//! through `one_pass`, by `NoncedGcm`. A change keeps alike in both: the block with counter 1, which is J0, masks the tag; the
//! blocks from counter 2 on mask the text; the hash is over the ciphertext; and no byte is decrypted before the tags are compared.

use crate::proved::aead::aead::Aead;
use crate::proved::aead::authenticator::Authenticator;
use crate::proved::aead::one_pass::{OnePass, open_whole, seal_whole};
use crate::proved::aead::suite::Suite;
use crate::proved::aes::{AesKey, CtrBe};
use crate::proved::gf128::{Ghash, Keyed128, Multiply, TableMul, WideMul};
use crate::proved::octets::{Block, Fault, Nonce, Tag, joined, le_bytes, same, wide, xor_into, xored};

/// AES-GCM under a key of 16, 24 or 32 bytes (SP 800-38D). Opening in place authenticates before it
/// changes a byte. Contracts see its suite and key.
pub struct Gcm {
    key: AesKey,
    multiplier: TableMul,
    // Behind the key: before it, the bytes between them make LLVM move the key twice.
    suite: Suite,
}

impl Gcm {
    // Returns the cipher of one of the three suites under a key.
    #[inline(always)]
    pub(in crate::proved::aead) fn new(suite: Suite, key: AesKey) -> Gcm {
        let multiplier = TableMul::of(&hash_subkey(&key));
        Gcm { key, multiplier, suite }
    }

    // Lends the key schedule and the multiplier.
    #[inline(always)]
    fn lent<'k>(&'k self) -> BorrowedGcm<'k, &'k TableMul> {
        BorrowedGcm { suite: self.suite, key: &self.key, multiplier: &self.multiplier }
    }

    // Returns the key and the multiplier that the cipher holds.
    pub(in crate::proved::aead) fn keys(&self) -> (&AesKey, &TableMul) {
        (&self.key, &self.multiplier)
    }

    // Returns a multiplier by the hash key for a long text. This is inlined, since it would be moved.
    #[inline(always)]
    pub(in crate::proved::aead) fn wide_multiplier(&self) -> WideMul {
        let mut multiplier = WideMul::none();
        multiplier.set_table(&self.multiplier);
        multiplier
    }
}

/// Returns the hash subkey H of a key: the block of zeros under AES (SP 800-38D, 7.1). It is the key of GHASH, and secret.
#[inline(always)]
pub fn hash_subkey(key: &AesKey) -> Block {
    key.encrypt_in_registers(&Block::new([0; 16]))
}

// Returns the secret that the state of a message holds: the key of GHASH, and the block that the tag is masked with.
pub(in crate::proved::aead) fn message_secret(key: &AesKey, ghash_key: &Block, nonce: &Nonce) -> [u8; 32] {
    joined(ghash_key.bytes(), key.encrypt_in_registers(&nonce_and_counter(nonce, 1)).bytes())
}

// Returns the tag: the hash, XORed with the cipher of J0 (SP 800-38D, 7.1).
#[inline(always)]
pub(in crate::proved::aead) fn masked_tag(mask: &Block, digest: &Block) -> Tag {
    Tag::new(xored(mask.bytes(), digest.bytes()))
}

// Returns the block of the nonce and a counter (SP 800-38D, 7.1). It is made as one vector, since 16 bytes that were written in pieces
// are slow to read at once; of the counter in the sum LLVM would make pieces again.
#[inline(always)]
pub(in crate::proved::aead) fn nonce_and_counter(nonce: &Nonce, counter: u8) -> Block {
    let bytes = nonce.bytes();
    let mut front = [0; 8];
    front.copy_from_slice(&bytes[..8]);
    let mut back = [0; 4];
    back.copy_from_slice(&bytes[8..]);
    let low = u128::from(u64::from_le_bytes(front));
    let high = u128::from(u32::from_le_bytes(back)) * 0x1_0000_0000_0000_0000;
    let last = [0, 0, 0, 0, 0, 0, 0, 0, 0, 0, 0, 0, 0, 0, 0, counter];
    Block::new(xored(&le_bytes(low + high), &last))
}

// Whether the counter blocks of a text of this length are encrypted in one call with J0: one in a pair, two or three among four.
// Without vectors of 32 bytes, a pair and J0 apart take less time than four.
#[inline(always)]
fn is_short(count: usize) -> bool {
    0 < count && count <= 48 && (wide() || count <= 16 || 32 < count)
}

// Returns J0 and the counter block after it (SP 800-38D, 7.1).
#[inline(always)]
fn two_blocks(nonce: &Nonce) -> [u8; 32] {
    joined(nonce_and_counter(nonce, 1).bytes(), nonce_and_counter(nonce, 2).bytes())
}

// Returns J0 and the three counter blocks after it (SP 800-38D, 7.1).
#[inline(always)]
fn four_blocks(nonce: &Nonce) -> [u8; 64] {
    let front: [u8; 32] = joined(nonce_and_counter(nonce, 1).bytes(), nonce_and_counter(nonce, 2).bytes());
    let back = joined(nonce_and_counter(nonce, 3).bytes(), nonce_and_counter(nonce, 4).bytes());
    joined(&front, &back)
}

// Returns the tag over a short ciphertext. `start` is the ciphers of J0 and of the counter blocks.
#[inline(always)]
fn short_tag<M: Multiply>(multiplier: &M, start: &[u8], aad: &[u8], body: &[u8]) -> Tag {
    let mut authenticator = Authenticator::empty(Ghash::with(multiplier));
    authenticator.begin(aad);
    authenticator.update(body);
    let mut mask = [0; 16];
    mask.copy_from_slice(&start[..16]);
    masked_tag(&Block::new(mask), &authenticator.digest())
}

// Seals a short text. `start` is the ciphers of J0 and of the counter blocks.
#[inline(never)]
fn seal_from<M: Multiply>(multiplier: &M, start: &[u8], aad: &[u8], text: &mut [u8]) -> Tag {
    xor_into(text, &start[16..16 + text.len()]);
    short_tag(multiplier, start, aad, text)
}

// Opens a short ciphertext. `start` is the ciphers of J0 and of the counter blocks.
#[inline(never)]
fn open_from<M: Multiply>(multiplier: &M, start: &[u8], aad: &[u8], body: &mut [u8], tag: &Tag) -> Result<(), Fault> {
    let given = tag.bytes();
    if !same(short_tag(multiplier, start, aad, body).bytes(), given) {
        return Err(Fault::TagMismatch);
    }
    xor_into(body, &start[16..16 + body.len()]);
    Ok(())
}

// Seals a short text, as `seal_fitting` does. It is a separate function, since its frame would slow down other texts.
#[inline(never)]
fn seal_short<M: Multiply>(key: &AesKey, multiplier: M, nonce: &Nonce, aad: &[u8], text: &mut [u8]) -> Tag {
    if text.len() <= 16 {
        let start = key.encrypt_two(&two_blocks(nonce));
        return seal_from(&multiplier, &start, aad, text);
    }
    let start = key.encrypt_four(&four_blocks(nonce));
    seal_from(&multiplier, &start, aad, text)
}

// Opens a short ciphertext, as `open_fitting` does.
#[inline(never)]
fn open_short<M: Multiply>(
    key: &AesKey,
    multiplier: M,
    nonce: &Nonce,
    aad: &[u8],
    body: &mut [u8],
    tag: &Tag,
) -> Result<(), Fault> {
    if body.len() <= 16 {
        let start = key.encrypt_two(&two_blocks(nonce));
        return open_from(&multiplier, &start, aad, body, tag);
    }
    let start = key.encrypt_four(&four_blocks(nonce));
    open_from(&multiplier, &start, aad, body, tag)
}

/// AES-GCM (SP 800-38D) by a key's schedule and a multiplier by its hash subkey, which the caller keeps, as a [`Gcm`] keeps its own.
/// Opening in place authenticates before it changes a byte.
pub struct BorrowedGcm<'k, M: Multiply> {
    suite: Suite,
    key: &'k AesKey,
    multiplier: M,
}

impl<'k, M: Multiply + Copy> BorrowedGcm<'k, M> {
    /// AES-GCM of one of its three suites, by a key of the suite's length, 16, 24 or 32 bytes, and a multiplier by its
    /// [`hash_subkey`].
    #[inline(always)]
    pub fn new(suite: Suite, key: &'k AesKey, multiplier: M) -> BorrowedGcm<'k, M> {
        BorrowedGcm { suite, key, multiplier }
    }
}

// The inputs of one message: the cipher and the nonce.
struct NoncedGcm<'c, 'k, M: Multiply> {
    cipher: &'c BorrowedGcm<'k, M>,
    nonce: &'c Nonce,
}

impl<'c, 'k, M: Multiply + Copy> OnePass for NoncedGcm<'c, 'k, M> {
    type Stream = CtrBe<'k>;

    type Hash = Ghash<M>;

    // The first counter block is inc32(J0) (SP 800-38D, 7.1).
    #[inline(always)]
    fn mask(&self) -> CtrBe<'k> {
        CtrBe::new(self.cipher.key, &nonce_and_counter(self.nonce, 2))
    }

    #[inline(always)]
    fn hash(&self) -> Ghash<M> {
        Ghash::with(self.cipher.multiplier)
    }

    #[inline(always)]
    fn tag(&self, digest: &Block) -> Tag {
        let key = self.cipher.key;
        let mask = key.encrypt_in_registers(&nonce_and_counter(self.nonce, 1));
        masked_tag(&mask, digest)
    }
}

impl<'k, M: Multiply + Copy> Aead for BorrowedGcm<'k, M> {
    fn suite(&self) -> Suite {
        self.suite
    }

    fn seal_fitting(&self, nonce: &Nonce, aad: &[u8], text: &mut [u8]) -> Tag {
        if is_short(text.len()) {
            return seal_short(self.key, self.multiplier, nonce, aad, text);
        }
        let cipher = self;
        seal_whole(&NoncedGcm { cipher, nonce }, aad, text)
    }

    fn open_fitting(&self, nonce: &Nonce, aad: &[u8], body: &mut [u8], tag: &Tag) -> Result<(), Fault> {
        if is_short(body.len()) {
            return open_short(self.key, self.multiplier, nonce, aad, body, tag);
        }
        let cipher = self;
        open_whole(&NoncedGcm { cipher, nonce }, aad, body, tag)
    }
}

impl Aead for Gcm {
    fn suite(&self) -> Suite {
        self.suite
    }

    fn seal_fitting(&self, nonce: &Nonce, aad: &[u8], text: &mut [u8]) -> Tag {
        self.lent().seal_fitting(nonce, aad, text)
    }

    fn open_fitting(&self, nonce: &Nonce, aad: &[u8], body: &mut [u8], tag: &Tag) -> Result<(), Fault> {
        self.lent().open_fitting(nonce, aad, body, tag)
    }
}
