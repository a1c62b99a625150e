// Made from crates/aeadkit/src/tests/of_gf128.rt by tools/erase: not to be edited.
//! GHASH and POLYVAL.
use super::digits::{bytes, sixteen};
use super::shows;
use crate::kit::alloc::Global;
use crate::kit::{Abort, Alloc, HostRuntime};
use aeadkit::internals::gf128::{
    BitMul, BlockHash, GhashOrder, HashOrder, Keyed128, Multiply, PlainMul, PolyvalOrder, TableMul, WideMul,
};
use aeadkit::internals::octets::Block;

// The hash of a text, with a multiplier that is made from the key.
fn hash_of<M: Keyed128, O: HashOrder>(key: &Block, text: &[u8]) -> [u8; 16] {
    let mut state = BlockHash::<M, O>::new(key);
    state.update(text);
    *state.finish().bytes()
}

// The hash of a text in two pieces, with this multiplier.
fn hash_by<M: Multiply, O: HashOrder>(multiplier: M, text: &[u8]) -> [u8; 16] {
    let (front, back) = text.split_at(text.len() / 3);
    let mut state = BlockHash::<M, O>::with(multiplier);
    state.update(front);
    state.update(back);
    *state.finish().bytes()
}

// The hash of a text, with the multiples of the multiplier's key as plain numbers.
fn hash_by_plain<O: HashOrder>(multiplied: &Block, text: &[u8]) -> [u8; 16] {
    let multiples = TableMul::of(multiplied).plain_multiples();
    hash_by::<PlainMul, O>(PlainMul::new(multiplied, &multiples), text)
}

// Whether each multiplier gives this hash.
fn is_hash<O: HashOrder>(key: &Block, text: &[u8], hash: &[u8; 16]) -> bool {
    let multiplied = O::multiplier_key(key);
    hash_of::<BitMul, O>(key, text) == *hash
        && hash_of::<TableMul, O>(key, text) == *hash
        && hash_of::<WideMul, O>(key, text) == *hash
        && hash_by::<&WideMul, O>(&WideMul::of(&multiplied), text) == *hash
        && hash_by::<&TableMul, O>(&TableMul::of(&multiplied), text) == *hash
        && hash_by_plain::<O>(&multiplied, text) == *hash
}

// A key, a text and its GHASH.
const GHASHES: [(&str, &str, &str); 4] = [
    // 1 times a block.
    ("80000000000000000000000000000000", "123456789abcdef00102030405060788", "123456789abcdef00102030405060788"),
    // x times x^127 is x^7 + x^2 + x + 1.
    ("40000000000000000000000000000000", "00000000000000000000000000000001", "e1000000000000000000000000000000"),
    // The GCM submission, cases 2 and 3.
    (
        "66e94bd4ef8a2c3b884cfa59ca342b2e",
        "0388dace60b6a392f328c2b971b2fe7800000000000000000000000000000080",
        "f38cbb1ad69223dcc3457ae5b6b0f885",
    ),
    (LONG_KEY, LONG, "7f1b32b81b820d02614f8895ac1d4eac"),
];

const LONG_KEY: &str = "b83b533708bf535d0aa6e52980d53b78";

// Four blocks that are multiplied together, and one more block.
const LONG: &str = "42831ec2217774244b7221b784d0d49ce3aa212f2c02a4e035c17e2329aca12e21d514b25466931c\
    7d8f6a5aac84aa051ba30b396a0aac973d58e091473f598500000000000000000000000000000200";

// A key, a text and its POLYVAL.
const POLYVALS: [(&str, &str, &str); 3] = [
    // x^128 times a block, times x^-128.
    ("010000000000000000000000000000c2", "123456789abcdef00102030405060788", "123456789abcdef00102030405060788"),
    // RFC 8452, appendix A.
    (
        "25629347589242761d31f826ba4b757b",
        "4f4f95668c83dfb6401762bb2d01a262d1a24ddd2721d006bbe45f20d3c9f362",
        "f7a3b47b846119fae5b7866cf5e5b77e",
    ),
    // Computed bit by bit.
    (LONG_KEY, LONG, "d6f222e6d011417a59dc2bd5eefd4e24"),
];

// Compares the hash of each text of a table.
fn are_hashes<O: HashOrder>(rt: &(impl Abort + Alloc<A = Global>), table: &[(&str, &str, &str)]) {
    for (key, text, hash) in table {
        let key = Block::new(sixteen(rt, key));
        let is_right = is_hash::<O>(&key, &bytes(rt, text), &sixteen(rt, hash));
        shows(rt, is_right, hash);
    }
}

#[test]
fn ghashes_and_polyvals() {
    let rt = HostRuntime;
    are_hashes::<GhashOrder>(&rt, &GHASHES);
    are_hashes::<PolyvalOrder>(&rt, &POLYVALS);
}
