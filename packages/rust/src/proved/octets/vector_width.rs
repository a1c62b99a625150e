// Made from crates/octets/src/vector_width.rt by tools/erase: not to be edited.
//! What the build says of the processor's vectors. No code can ask, so this module is one function, and the build for processors with
//! AVX2 changes its body.

/// Whether a vector of the processor holds 32 bytes, as with AVX2. It chooses between forms that give the same bytes and
/// differ in speed alone. No contract says which, so what is proved holds for both.
#[inline(always)]
pub fn wide() -> bool {
    crate::simd::WIDE
}
