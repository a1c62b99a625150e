// Made from crates/aeadkit/src/tests/of_aead/cuts.rt by tools/erase: not to be edited.
//! Sealing in pieces that begin at given cuts.

use super::super::published::{CHACHA, GCM_SIV};
use super::super::shows;
use super::samples::*;
use crate::kit::alloc::{Allocator, Global, Vec};
use crate::kit::{Abort, Alloc, HostRuntime};
use aeadkit::internals::aead::seal_cut;

// Whether the pieces have these lengths.
fn have_lengths<A: Allocator>(pieces: &[Vec<u8, A>], lengths: &[usize]) -> bool {
    for (piece, length) in pieces.iter().zip(lengths) {
        if piece.len() != *length {
            return false;
        }
    }
    pieces.len() == lengths.len()
}

// Seals a text with these cuts. The pieces have these lengths, and joined they are the published sealing.
fn has_pieces(rt: &(impl Abort + Alloc<A = Global>), sample: &Sample, cuts: &[u64], lengths: &[usize]) {
    let Sample { cipher, nonce, aad, text, sealed } = sample;
    let pieces = seal_cut(rt.alloc(), cipher, nonce, aad, text, cuts).expect("pieces");
    shows(rt, are_joined(&pieces, sealed), "a sealing");
    shows(rt, have_lengths(&pieces, lengths), "lengths");
}

// A suite that reads the text once, with one cut at each place and with three cuts, and a suite that reads it twice.
#[test]
fn pieces_begin_at_the_cuts() {
    let rt = HostRuntime;
    let chacha = sample_of(&rt, CHACHA);
    for cut in 1..115u64 {
        let first = cut as usize;
        has_pieces(&rt, &chacha, &[cut], &[first, 114 - first, 16]);
    }
    has_pieces(&rt, &chacha, &[1, 5, 16], &[1, 4, 11, 98, 16]);
    has_pieces(&rt, &sample_of(&rt, GCM_SIV), &[3, 8], &[3, 5, 0, 16]);
}
