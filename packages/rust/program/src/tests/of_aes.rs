// Made from crates/aeadkit/src/tests/of_aes.rt by tools/erase: not to be edited.
//! AES and its streams of counter blocks.

use super::shows;
use crate::kit::HostRuntime;
use aeadkit::internals::aes::{AesKey, Count, Ctr, CtrBe, CtrLe, FirstFour, LastFour};
use aeadkit::internals::octets::{Block, Key16, Key24, Key32};

// A key of n bytes is the first n of these bytes.
const BYTES: [u8; 32] = [
    0, 1, 2, 3, 4, 5, 6, 7, 8, 9, 10, 11, 12, 13, 14, 15, 16, 17, 18, 19, 20, 21, 22, 23, 24, 25, 26, 27, 28, 29, 30,
    31,
];

const TEXT: [u8; 16] = *b"\x00\x11\x22\x33\x44\x55\x66\x77\x88\x99\xaa\xbb\xcc\xdd\xee\xff";

// FIPS 197, appendices C.1 to C.3: the ciphertexts of `TEXT` under the keys of 16, 24 and 32 bytes.
const CIPHERS: [[u8; 16]; 3] = [
    *b"\x69\xc4\xe0\xd8\x6a\x7b\x04\x30\xd8\xcd\xb7\x80\x70\xb4\xc5\x5a",
    *b"\xdd\xa9\x7c\xa4\x86\x4c\xdf\xe0\x6e\xaf\x70\xa0\xec\x0d\x71\x91",
    *b"\x8e\xa2\xb7\xca\x51\x67\x45\xbf\xea\xfc\x49\x90\x4b\x49\x60\x89",
];

// Whether the text is encrypted to this block, alone and as the last of four blocks, and decrypted again.
fn is_cipher(key: &AesKey, cipher: &[u8; 16]) -> bool {
    let block = key.encrypt(&Block::new(TEXT));
    let mut four = [0; 64];
    four[48..].copy_from_slice(&TEXT);
    block.bytes() == cipher
        && &key.encrypt_four(&four)[48..] == cipher.as_slice()
        && *key.decrypt(&block).bytes() == TEXT
}

#[test]
fn published_ciphers() {
    let rt = HostRuntime;
    let key = Key16::from_slice(&BYTES[..16]).expect("16 bytes");
    shows(&rt, is_cipher(&AesKey::new128(&key), &CIPHERS[0]), "16 bytes");
    let key = Key24::from_slice(&BYTES[..24]).expect("24 bytes");
    shows(&rt, is_cipher(&AesKey::new192(&key), &CIPHERS[1]), "24 bytes");
    let key = Key32::new(BYTES);
    shows(&rt, is_cipher(&AesKey::new256(&key), &CIPHERS[2]), "32 bytes");
}

// The counter block of twelve zeros and ffffffff is followed by the block of sixteen zeros.
#[test]
fn zeros_after_the_last_count() {
    let rt = HostRuntime;
    let key = AesKey::from_slice(&[0; 16]).expect("a key");
    let mut first = [0; 16];
    first[12..].copy_from_slice(&[255; 4]);
    let mut bytes = [0; 32];
    CtrBe::new(&key, &Block::new(first)).apply(&mut bytes);
    let due = *b"\x66\xe9\x4b\xd4\xef\x8a\x2c\x3b\x88\x4c\xfa\x59\xca\x34\x2b\x2e";
    shows(&rt, bytes.ends_with(&due), "the last block");
}

// A counter block that begins with ffffffff is followed by the block of four zeros and the same last twelve bytes.
#[test]
fn zeros_before_the_last_twelve() {
    let rt = HostRuntime;
    let key = AesKey::from_slice(&BYTES[..16]).expect("a key");
    let mut first = TEXT;
    first[..4].copy_from_slice(&[255; 4]);
    let mut blocks = [0; 64];
    blocks[..16].copy_from_slice(&first);
    blocks[20..32].copy_from_slice(&TEXT[4..]);
    let mut bytes = [0; 32];
    CtrLe::new(&key, &Block::new(first)).apply(&mut bytes);
    let due = key.encrypt_four(&blocks);
    shows(&rt, due.starts_with(&bytes), "two blocks");
}

// The first bytes of a stream, taken in pieces of this length.
fn in_pieces<C: Count>(key: &AesKey, first: &Block, length: usize) -> [u8; 3088] {
    let mut bytes = [0; 3088];
    let mut stream: Ctr<C> = Ctr::new(key, first);
    for piece in bytes.chunks_mut(length) {
        stream.apply(piece);
    }
    bytes
}

// Pieces of four blocks are made block by block; 128 blocks, and one more, in runs of sixteen that share their first round while the
// counter's low byte does not pass 255.
#[test]
fn streams_in_pieces() {
    let rt = HostRuntime;
    let key = AesKey::from_slice(&BYTES).expect("a key");
    for low in 0..255 {
        let mut first = TEXT;
        first[0] = low;
        first[15] = low;
        let block = Block::new(first);
        let due = in_pieces::<LastFour>(&key, &block, 64);
        let shared = in_pieces::<LastFour>(&key, &block, 2048);
        shows(&rt, due.starts_with(&shared), "128 blocks");
        let shared = in_pieces::<LastFour>(&key, &block, 2064);
        shows(&rt, due.starts_with(&shared), "129 blocks");
        let due = in_pieces::<FirstFour>(&key, &block, 64);
        let shared = in_pieces::<FirstFour>(&key, &block, 3088);
        shows(&rt, due.starts_with(&shared), "193 blocks");
    }
}
