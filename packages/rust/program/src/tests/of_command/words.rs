// Made from crates/aeadkit/src/tests/of_command/words.rt by tools/erase: not to be edited.
//! Words that print a line, and words that are refused.
use super::super::devices::NO_FILES;
use super::super::published::{PADDED, PADDED_LENGTHS, WRAPPINGS, Wrapping, word};
use super::super::runs::{prints, runs_into, runs_row, words_after};
use super::super::shows;
use crate::command::VERSION;
use crate::kit::alloc::{Global, Vec};
use crate::kit::{Abort, Alloc, HostRuntime};

// Each line of these tables has a status, a fault and the words that are refused with them; `-` is the empty word.

// Wrapping and unwrapping: the hex of the key is checked first, then the hex of the text, then the key's length, then
// the text's length.
const OF_WRAPPING: &str = "\
2 BadHex wrap --key 0 --text 0
2 BadHex unwrap --key 0 --sealed 0
2 BadHex wrap --key 0g --text -
2 BadHex unwrap --key 0g --sealed -
2 BadHex wrap --key 00 --text 0
2 BadHex unwrap --key 00 --sealed 0
2 KeyLength wrap --key 00 --text 00
2 KeyLength unwrap --key 00 --sealed 00
2 KeyLength wrap --key - --text -
2 KeyLength unwrap --key - --sealed -
2 BadHex wrap --key 000102030405060708090a0b0c0d0e0f --text 0x
2 BadHex unwrap --key 000102030405060708090a0b0c0d0e0f --sealed 0x
2 WrapLength wrap --key 000102030405060708090a0b0c0d0e0f --text -
2 WrapLength unwrap --key 000102030405060708090a0b0c0d0e0f --sealed -
2 WrapLength wrap --key 000102030405060708090a0b0c0d0e0f --text 0011223344556677
2 WrapLength unwrap --key 000102030405060708090a0b0c0d0e0f --sealed 0011223344556677
2 WrapLength wrap --key 000102030405060708090a0b0c0d0e0f --text 00112233445566778899aabbccddeeff00112233
2 WrapLength unwrap --key 000102030405060708090a0b0c0d0e0f --sealed 00112233445566778899aabbccddeeff";

// An empty text can't be wrapped with padding. A wrapping with padding has at least 16 bytes, in whole blocks of 8.
// Each form refuses the wrappings of the other. The last four rows unwrap one encrypted block. Three of these blocks
// are a65959a6, a length of 0, 9 or 7 bytes, and bytes that are not a text of that length followed by zeros. The fourth
// block has a65959a7 in place of a65959a6.
const OF_PADDING: &str = "\
2 WrapLength wrap --pad --key 000102030405060708090a0b0c0d0e0f --text -
2 WrapLength unwrap --pad --key 000102030405060708090a0b0c0d0e0f --sealed 0011223344556677
2 WrapLength unwrap --pad --key 000102030405060708090a0b0c0d0e0f --sealed 00112233445566778899aabbccddeeff00112233
1 WrapIntegrity unwrap --pad --key 000102030405060708090a0b0c0d0e0f --sealed 1fa68b0a8112b447aef34bd8fb5a7b829d3e862371d2cfe5
1 WrapIntegrity unwrap --key 5840df6e29b02af1ab493b705bf16ea1ae8338f4dcc176a8 --sealed 138bdeaa9b8fa7fc61f97742e72248ee5ae6ae5360d1ae6a5f54f373fa543b6a
2 WrapLength unwrap --key 5840df6e29b02af1ab493b705bf16ea1ae8338f4dcc176a8 --sealed afbeb0f07dfbf5419200f2ccb50bb24f
1 WrapIntegrity unwrap --pad --key 5840df6e29b02af1ab493b705bf16ea1ae8338f4dcc176a8 --sealed 0c61aedfd52c447a13f16a6be9443095
1 WrapIntegrity unwrap --pad --key 5840df6e29b02af1ab493b705bf16ea1ae8338f4dcc176a8 --sealed 2158014f64091f76895d684fa53f9c09
1 WrapIntegrity unwrap --pad --key 5840df6e29b02af1ab493b705bf16ea1ae8338f4dcc176a8 --sealed 0176a4c40ddf6166ab242832acce88d8
1 WrapIntegrity unwrap --pad --key 5840df6e29b02af1ab493b705bf16ea1ae8338f4dcc176a8 --sealed d3bc14fb6dc0b7f3ffa6695290398efb";

// Changed bytes are not a valid wrapping.
const OF_BYTES: &str = "\
1 WrapIntegrity unwrap --key 000102030405060708090a0b0c0d0e0f --sealed 1fa68b0a8112b447aef34bd8fb5a7b829d3e862371d2cfe4";

// Arguments that are not a valid command line.
const OF_WORDS: &str = "\
2 Words
2 Words -
2 Words frob
2 Words wrap
2 Words wrap --key 000102030405060708090a0b0c0d0e0f
2 Words wrap --key 000102030405060708090a0b0c0d0e0f --text
2 Words wrap --key 000102030405060708090a0b0c0d0e0f --key 000102030405060708090a0b0c0d0e0f --text 00112233445566778899aabbccddeeff
2 Words wrap --key 000102030405060708090a0b0c0d0e0f --text 00112233445566778899aabbccddeeff more
2 Words wrap --key 000102030405060708090a0b0c0d0e0f --sealed 00112233445566778899aabbccddeeff
2 Words unwrap --key 000102030405060708090a0b0c0d0e0f --text 00112233445566778899aabbccddeeff
2 Words seal --suite aes-128-gcm --key 000102030405060708090a0b0c0d0e0f
2 Words open --suite aes-128-gcm --key 000102030405060708090a0b0c0d0e0f --nonce -
2 Words check
2 Words check a b
2 Words check -heat.vectors
2 Words check -Vectors
2 Words -hx
2 Words -Version
2 Words seal-file
2 Words help frob
2 Words seal --version";

// A command line with one path for both files is refused, whatever the suite is.
const OF_PATHS: &str = "\
2 Words seal-file --suite chacha20-poly1305 --key 808182838485868788898a8b8c8d8e8f909192939495969798999a9b9c9d9e9f \
    --nonce 070000004041424344454647 --aad 50515253c0c1c2c3c4c5c6c7 --in a --out a
2 Words open-file --suite chacha20-poly1305 --key 808182838485868788898a8b8c8d8e8f909192939495969798999a9b9c9d9e9f \
    --nonce 070000004041424344454647 --aad 50515253c0c1c2c3c4c5c6c7 --in a --out a
2 Words seal-file --suite des --key 0 --nonce 0 --in a --out a
2 Words open-file --suite des --key 0 --nonce 0 --in a --out a";

#[test]
fn refused_words() {
    let rt = HostRuntime;
    for table in [OF_WRAPPING, OF_PADDING, OF_BYTES, OF_WORDS, OF_PATHS] {
        for row in table.lines() {
            runs_row(&rt, &NO_FILES, row);
        }
    }
}

// Wraps and unwraps a text, with padding or without.
fn is_wrapped(rt: &(impl Abort + Alloc<A = Global>), line: &str, pad: bool) {
    let Wrapping { key, text, wrapped } = Wrapping::of(line);
    let count = if pad { 6 } else { 5 };
    let words = ["wrap", "--key", key, "--text", text, "--pad"];
    prints(rt, &words[..count], wrapped);
    let words = ["unwrap", "--key", key, "--sealed", wrapped, "--pad"];
    prints(rt, &words[..count], text);
}

#[test]
fn wrapping_vectors() {
    let rt = HostRuntime;
    for line in &WRAPPINGS {
        is_wrapped(&rt, line, false);
    }
    for table in [PADDED.as_slice(), PADDED_LENGTHS.as_slice()] {
        for line in table {
            is_wrapped(&rt, line, true);
        }
    }
}

// A line, and the words that print it. Hex digits may be in upper or lower case, a value may follow `=`, and an option
// that is not given has an empty value.
const PRINTED: &str = "\
00112233445566778899aabbccddeeff unwrap --sealed=1FA68B0A8112B447AEF34BD8FB5A7B829D3E862371D2CFE5 --key=000102030405060708090A0b0c0d0E0F
58e2fccefa7e3061367f1d57a4e7455a seal --suite aes-128-gcm --key 00000000000000000000000000000000 --nonce 000000000000000000000000
- open --suite aes-128-gcm --key 00000000000000000000000000000000 --nonce 000000000000000000000000 --sealed 58e2fccefa7e3061367f1d57a4e7455a";

#[test]
fn printed_lines() {
    let rt = HostRuntime;
    for row in PRINTED.lines() {
        prints(&rt, &words_after(&rt, row, 1), word(row.split(' ').next()));
    }
}

// Command lines that ask for help.
const HELP: &str = "\
--help
-h
help
help wrap
help check
seal --help
unwrap --help
wrap --key 0 -h";

// Help goes to standard output, with status 0.
#[test]
fn help() {
    let rt = HostRuntime;
    for line in HELP.lines() {
        let words = words_after(&rt, line, 0);
        let mut out: Vec<u8> = Vec::new(rt.alloc());
        runs_into(&rt, &NO_FILES, &words, &mut out, 0, "");
        shows(&rt, !out.is_empty(), line);
    }
}

// The version is one line on standard output.
#[test]
fn version() {
    let rt = HostRuntime;
    let line = format!(in rt.alloc(); "aeadkit {VERSION}").expect("memory");
    prints(&rt, &["--version"], &line);
    prints(&rt, &["-V"], &line);
}
