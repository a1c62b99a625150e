// Made from crates/capi/src by tools/erase: not to be edited.
//! The calls of `packages/c/include/aeadkit.h`: each makes slices of the pointers and lengths of C, and calls the proved function
//! of the same name.

use crate::proved::capi::opener::StoredOpener;
use crate::proved::capi::sealer::StoredSealer;
use crate::proved::capi::siv::StoredSiv;
use crate::proved::capi::stored_key::{KeyNumbers, StoredKey};
use crate::proved::capi::{facts, key, key_wrap, opener, sealer, siv, whole};

/// The bytes at a pointer, which counts for nothing if there are none: C may have no place for them. No object is longer than
/// `isize::MAX`, nor may a slice be: of a greater length, which the calls refuse, only that many are named.
///
/// # Safety
/// The pointer leads to as many bytes, which nobody changes while the slice lives.
#[inline(always)]
unsafe fn bytes<'a>(at: *const u8, len: usize) -> &'a [u8] {
    if len == 0 {
        return &[];
    }
    // SAFETY: as the caller promises.
    unsafe { core::slice::from_raw_parts(at, len.min(isize::MAX as usize)) }
}

/// As [`bytes`], to be written.
///
/// # Safety
/// The pointer leads to as many bytes, which nobody else reads or changes while the slice lives.
#[inline(always)]
unsafe fn bytes_mut<'a>(at: *mut u8, len: usize) -> &'a mut [u8] {
    if len == 0 {
        return &mut [];
    }
    // SAFETY: as the caller promises.
    unsafe { core::slice::from_raw_parts_mut(at, len.min(isize::MAX as usize)) }
}

#[unsafe(no_mangle)]
pub extern "C" fn aeadkit_key_length(suite: u32) -> usize {
    facts::aeadkit_key_length(suite)
}

#[unsafe(no_mangle)]
pub extern "C" fn aeadkit_text_limit(suite: u32) -> u64 {
    facts::aeadkit_text_limit(suite)
}

#[unsafe(no_mangle)]
pub extern "C" fn aeadkit_aad_limit(suite: u32) -> u64 {
    facts::aeadkit_aad_limit(suite)
}

#[unsafe(no_mangle)]
pub extern "C" fn aeadkit_version() -> u32 {
    facts::aeadkit_version()
}

#[unsafe(no_mangle)]
pub extern "C" fn aeadkit_key_wipe(kept: &mut KeyNumbers) {
    key::aeadkit_key_wipe(kept)
}

#[unsafe(no_mangle)]
pub unsafe extern "C" fn aeadkit_key_init(kept: &mut KeyNumbers, suite: u32, key: *const u8, key_len: usize) -> u32 {
    // SAFETY: the header asks for pointers to as many bytes as the lengths say, and that nothing overlaps what is written.
    let key = unsafe { bytes(key, key_len) };
    key::aeadkit_key_init(kept, suite, key)
}

#[unsafe(no_mangle)]
pub unsafe extern "C" fn aeadkit_seal_in_place_with(
    kept: &StoredKey,
    nonce: *const u8,
    nonce_len: usize,
    text: *mut u8,
    text_len: usize,
    aad: *const u8,
    aad_len: usize,
    tag: &mut [u8; 16],
) -> u32 {
    // SAFETY: the header asks for pointers to as many bytes as the lengths say, and that nothing overlaps what is written.
    let (nonce, text, aad) = unsafe { (bytes(nonce, nonce_len), bytes_mut(text, text_len), bytes(aad, aad_len)) };
    key::aeadkit_seal_in_place_with(kept, nonce, text, aad, tag)
}

#[unsafe(no_mangle)]
pub unsafe extern "C" fn aeadkit_open_in_place_with(
    kept: &StoredKey,
    nonce: *const u8,
    nonce_len: usize,
    text: *mut u8,
    text_len: usize,
    aad: *const u8,
    aad_len: usize,
    tag: &[u8; 16],
) -> u32 {
    // SAFETY: the header asks for pointers to as many bytes as the lengths say, and that nothing overlaps what is written.
    let (nonce, text, aad) = unsafe { (bytes(nonce, nonce_len), bytes_mut(text, text_len), bytes(aad, aad_len)) };
    key::aeadkit_open_in_place_with(kept, nonce, text, aad, tag)
}

#[unsafe(no_mangle)]
pub unsafe extern "C" fn aeadkit_seal_with(
    kept: &StoredKey,
    nonce: *const u8,
    nonce_len: usize,
    text: *const u8,
    text_len: usize,
    aad: *const u8,
    aad_len: usize,
    sealed: *mut u8,
    sealed_len: usize,
) -> u32 {
    // SAFETY: the header asks for pointers to as many bytes as the lengths say, and that nothing overlaps what is written.
    let (nonce, text, aad, sealed) =
        unsafe { (bytes(nonce, nonce_len), bytes(text, text_len), bytes(aad, aad_len), bytes_mut(sealed, sealed_len)) };
    key::aeadkit_seal_with(kept, nonce, text, aad, sealed)
}

#[unsafe(no_mangle)]
pub unsafe extern "C" fn aeadkit_open_with(
    kept: &StoredKey,
    nonce: *const u8,
    nonce_len: usize,
    sealed: *const u8,
    sealed_len: usize,
    aad: *const u8,
    aad_len: usize,
    text: *mut u8,
    text_len: usize,
) -> u32 {
    // SAFETY: the header asks for pointers to as many bytes as the lengths say, and that nothing overlaps what is written.
    let (nonce, sealed, aad, text) =
        unsafe { (bytes(nonce, nonce_len), bytes(sealed, sealed_len), bytes(aad, aad_len), bytes_mut(text, text_len)) };
    key::aeadkit_open_with(kept, nonce, sealed, aad, text)
}

#[unsafe(no_mangle)]
pub unsafe extern "C" fn aeadkit_sealer_init_with(
    sealer: &mut StoredSealer,
    kept: &StoredKey,
    nonce: *const u8,
    nonce_len: usize,
    aad: *const u8,
    aad_len: usize,
) -> u32 {
    // SAFETY: the header asks for pointers to as many bytes as the lengths say, and that nothing overlaps what is written.
    let (nonce, aad) = unsafe { (bytes(nonce, nonce_len), bytes(aad, aad_len)) };
    key::aeadkit_sealer_init_with(sealer, kept, nonce, aad)
}

#[unsafe(no_mangle)]
pub unsafe extern "C" fn aeadkit_opener_init_with(
    opener: &mut StoredOpener,
    kept: &StoredKey,
    nonce: *const u8,
    nonce_len: usize,
    aad: *const u8,
    aad_len: usize,
    tag: &[u8; 16],
) -> u32 {
    // SAFETY: the header asks for pointers to as many bytes as the lengths say, and that nothing overlaps what is written.
    let (nonce, aad) = unsafe { (bytes(nonce, nonce_len), bytes(aad, aad_len)) };
    key::aeadkit_opener_init_with(opener, kept, nonce, aad, tag)
}

#[unsafe(no_mangle)]
pub unsafe extern "C" fn aeadkit_siv_init_with(
    siv: &mut StoredSiv,
    kept: &StoredKey,
    nonce: *const u8,
    nonce_len: usize,
    aad: *const u8,
    aad_len: usize,
) -> u32 {
    // SAFETY: the header asks for pointers to as many bytes as the lengths say, and that nothing overlaps what is written.
    let (nonce, aad) = unsafe { (bytes(nonce, nonce_len), bytes(aad, aad_len)) };
    key::aeadkit_siv_init_with(siv, kept, nonce, aad)
}

#[unsafe(no_mangle)]
pub extern "C" fn aeadkit_key_size() -> usize {
    key::aeadkit_key_size()
}

#[unsafe(no_mangle)]
pub unsafe extern "C" fn aeadkit_wrap(
    key: *const u8,
    key_len: usize,
    text: *const u8,
    text_len: usize,
    wrapped: *mut u8,
    wrapped_len: usize,
) -> u32 {
    // SAFETY: the header asks for pointers to as many bytes as the lengths say, and that nothing overlaps what is written.
    let (key, text, wrapped) = unsafe { (bytes(key, key_len), bytes(text, text_len), bytes_mut(wrapped, wrapped_len)) };
    key_wrap::aeadkit_wrap(key, text, wrapped)
}

#[unsafe(no_mangle)]
pub unsafe extern "C" fn aeadkit_unwrap(
    key: *const u8,
    key_len: usize,
    wrapped: *const u8,
    wrapped_len: usize,
    text: *mut u8,
    text_len: usize,
) -> u32 {
    // SAFETY: the header asks for pointers to as many bytes as the lengths say, and that nothing overlaps what is written.
    let (key, wrapped, text) = unsafe { (bytes(key, key_len), bytes(wrapped, wrapped_len), bytes_mut(text, text_len)) };
    key_wrap::aeadkit_unwrap(key, wrapped, text)
}

#[unsafe(no_mangle)]
pub unsafe extern "C" fn aeadkit_wrap_padded(
    key: *const u8,
    key_len: usize,
    text: *const u8,
    text_len: usize,
    wrapped: *mut u8,
    wrapped_len: usize,
) -> u32 {
    // SAFETY: the header asks for pointers to as many bytes as the lengths say, and that nothing overlaps what is written.
    let (key, text, wrapped) = unsafe { (bytes(key, key_len), bytes(text, text_len), bytes_mut(wrapped, wrapped_len)) };
    key_wrap::aeadkit_wrap_padded(key, text, wrapped)
}

#[unsafe(no_mangle)]
pub unsafe extern "C" fn aeadkit_unwrap_padded(
    key: *const u8,
    key_len: usize,
    wrapped: *const u8,
    wrapped_len: usize,
    text: *mut u8,
    text_len: usize,
    text_length: &mut usize,
) -> u32 {
    // SAFETY: the header asks for pointers to as many bytes as the lengths say, and that nothing overlaps what is written.
    let (key, wrapped, text) = unsafe { (bytes(key, key_len), bytes(wrapped, wrapped_len), bytes_mut(text, text_len)) };
    key_wrap::aeadkit_unwrap_padded(key, wrapped, text, text_length)
}

#[unsafe(no_mangle)]
pub unsafe extern "C" fn aeadkit_opener_init(
    opener: &mut StoredOpener,
    suite: u32,
    key: *const u8,
    key_len: usize,
    nonce: *const u8,
    nonce_len: usize,
    aad: *const u8,
    aad_len: usize,
    tag: &[u8; 16],
) -> u32 {
    // SAFETY: the header asks for pointers to as many bytes as the lengths say, and that nothing overlaps what is written.
    let (key, nonce, aad) = unsafe { (bytes(key, key_len), bytes(nonce, nonce_len), bytes(aad, aad_len)) };
    opener::aeadkit_opener_init(opener, suite, key, nonce, aad, tag)
}

#[unsafe(no_mangle)]
pub unsafe extern "C" fn aeadkit_opener_check(opener: &mut StoredOpener, piece: *const u8, piece_len: usize) -> u32 {
    // SAFETY: the header asks for pointers to as many bytes as the lengths say, and that nothing overlaps what is written.
    let piece = unsafe { bytes(piece, piece_len) };
    opener::aeadkit_opener_check(opener, piece)
}

#[unsafe(no_mangle)]
pub extern "C" fn aeadkit_opener_begin_second(opener: &mut StoredOpener) -> u32 {
    opener::aeadkit_opener_begin_second(opener)
}

#[unsafe(no_mangle)]
pub unsafe extern "C" fn aeadkit_opener_update(opener: &mut StoredOpener, piece: *mut u8, piece_len: usize) -> u32 {
    // SAFETY: the header asks for pointers to as many bytes as the lengths say, and that nothing overlaps what is written.
    let piece = unsafe { bytes_mut(piece, piece_len) };
    opener::aeadkit_opener_update(opener, piece)
}

#[unsafe(no_mangle)]
pub extern "C" fn aeadkit_opener_finish(opener: &mut StoredOpener) -> u32 {
    opener::aeadkit_opener_finish(opener)
}

#[unsafe(no_mangle)]
pub extern "C" fn aeadkit_opener_wipe(opener: &mut StoredOpener) {
    opener::aeadkit_opener_wipe(opener)
}

#[unsafe(no_mangle)]
pub extern "C" fn aeadkit_opener_size() -> usize {
    opener::aeadkit_opener_size()
}

#[unsafe(no_mangle)]
pub unsafe extern "C" fn aeadkit_sealer_init(
    sealer: &mut StoredSealer,
    suite: u32,
    key: *const u8,
    key_len: usize,
    nonce: *const u8,
    nonce_len: usize,
    aad: *const u8,
    aad_len: usize,
) -> u32 {
    // SAFETY: the header asks for pointers to as many bytes as the lengths say, and that nothing overlaps what is written.
    let (key, nonce, aad) = unsafe { (bytes(key, key_len), bytes(nonce, nonce_len), bytes(aad, aad_len)) };
    sealer::aeadkit_sealer_init(sealer, suite, key, nonce, aad)
}

#[unsafe(no_mangle)]
pub unsafe extern "C" fn aeadkit_sealer_update(sealer: &mut StoredSealer, piece: *mut u8, piece_len: usize) -> u32 {
    // SAFETY: the header asks for pointers to as many bytes as the lengths say, and that nothing overlaps what is written.
    let piece = unsafe { bytes_mut(piece, piece_len) };
    sealer::aeadkit_sealer_update(sealer, piece)
}

#[unsafe(no_mangle)]
pub extern "C" fn aeadkit_sealer_finish(sealer: &mut StoredSealer, tag: &mut [u8; 16]) -> u32 {
    sealer::aeadkit_sealer_finish(sealer, tag)
}

#[unsafe(no_mangle)]
pub extern "C" fn aeadkit_sealer_wipe(sealer: &mut StoredSealer) {
    sealer::aeadkit_sealer_wipe(sealer)
}

#[unsafe(no_mangle)]
pub extern "C" fn aeadkit_sealer_size() -> usize {
    sealer::aeadkit_sealer_size()
}

#[unsafe(no_mangle)]
pub unsafe extern "C" fn aeadkit_siv_init(
    siv: &mut StoredSiv,
    suite: u32,
    key: *const u8,
    key_len: usize,
    nonce: *const u8,
    nonce_len: usize,
    aad: *const u8,
    aad_len: usize,
) -> u32 {
    // SAFETY: the header asks for pointers to as many bytes as the lengths say, and that nothing overlaps what is written.
    let (key, nonce, aad) = unsafe { (bytes(key, key_len), bytes(nonce, nonce_len), bytes(aad, aad_len)) };
    siv::aeadkit_siv_init(siv, suite, key, nonce, aad)
}

#[unsafe(no_mangle)]
pub unsafe extern "C" fn aeadkit_siv_absorb(siv: &mut StoredSiv, piece: *const u8, piece_len: usize) -> u32 {
    // SAFETY: the header asks for pointers to as many bytes as the lengths say, and that nothing overlaps what is written.
    let piece = unsafe { bytes(piece, piece_len) };
    siv::aeadkit_siv_absorb(siv, piece)
}

#[unsafe(no_mangle)]
pub extern "C" fn aeadkit_siv_begin_second(siv: &mut StoredSiv, tag: &mut [u8; 16]) -> u32 {
    siv::aeadkit_siv_begin_second(siv, tag)
}

#[unsafe(no_mangle)]
pub unsafe extern "C" fn aeadkit_siv_update(siv: &mut StoredSiv, piece: *mut u8, piece_len: usize) -> u32 {
    // SAFETY: the header asks for pointers to as many bytes as the lengths say, and that nothing overlaps what is written.
    let piece = unsafe { bytes_mut(piece, piece_len) };
    siv::aeadkit_siv_update(siv, piece)
}

#[unsafe(no_mangle)]
pub extern "C" fn aeadkit_siv_finish(siv: &mut StoredSiv) -> u32 {
    siv::aeadkit_siv_finish(siv)
}

#[unsafe(no_mangle)]
pub extern "C" fn aeadkit_siv_wipe(siv: &mut StoredSiv) {
    siv::aeadkit_siv_wipe(siv)
}

#[unsafe(no_mangle)]
pub extern "C" fn aeadkit_siv_size() -> usize {
    siv::aeadkit_siv_size()
}

#[unsafe(no_mangle)]
pub unsafe extern "C" fn aeadkit_seal_in_place(
    suite: u32,
    key: *const u8,
    key_len: usize,
    nonce: *const u8,
    nonce_len: usize,
    text: *mut u8,
    text_len: usize,
    aad: *const u8,
    aad_len: usize,
    tag: &mut [u8; 16],
) -> u32 {
    // SAFETY: the header asks for pointers to as many bytes as the lengths say, and that nothing overlaps what is written.
    let (key, nonce, text, aad) =
        unsafe { (bytes(key, key_len), bytes(nonce, nonce_len), bytes_mut(text, text_len), bytes(aad, aad_len)) };
    whole::aeadkit_seal_in_place(suite, key, nonce, text, aad, tag)
}

#[unsafe(no_mangle)]
pub unsafe extern "C" fn aeadkit_open_in_place(
    suite: u32,
    key: *const u8,
    key_len: usize,
    nonce: *const u8,
    nonce_len: usize,
    text: *mut u8,
    text_len: usize,
    aad: *const u8,
    aad_len: usize,
    tag: &[u8; 16],
) -> u32 {
    // SAFETY: the header asks for pointers to as many bytes as the lengths say, and that nothing overlaps what is written.
    let (key, nonce, text, aad) =
        unsafe { (bytes(key, key_len), bytes(nonce, nonce_len), bytes_mut(text, text_len), bytes(aad, aad_len)) };
    whole::aeadkit_open_in_place(suite, key, nonce, text, aad, tag)
}

#[unsafe(no_mangle)]
pub unsafe extern "C" fn aeadkit_seal(
    suite: u32,
    key: *const u8,
    key_len: usize,
    nonce: *const u8,
    nonce_len: usize,
    text: *const u8,
    text_len: usize,
    aad: *const u8,
    aad_len: usize,
    sealed: *mut u8,
    sealed_len: usize,
) -> u32 {
    // SAFETY: the header asks for pointers to as many bytes as the lengths say, and that nothing overlaps what is written.
    let (key, nonce, text, aad, sealed) = unsafe {
        (
            bytes(key, key_len),
            bytes(nonce, nonce_len),
            bytes(text, text_len),
            bytes(aad, aad_len),
            bytes_mut(sealed, sealed_len),
        )
    };
    whole::aeadkit_seal(suite, key, nonce, text, aad, sealed)
}

#[unsafe(no_mangle)]
pub unsafe extern "C" fn aeadkit_open(
    suite: u32,
    key: *const u8,
    key_len: usize,
    nonce: *const u8,
    nonce_len: usize,
    sealed: *const u8,
    sealed_len: usize,
    aad: *const u8,
    aad_len: usize,
    text: *mut u8,
    text_len: usize,
) -> u32 {
    // SAFETY: the header asks for pointers to as many bytes as the lengths say, and that nothing overlaps what is written.
    let (key, nonce, sealed, aad, text) = unsafe {
        (
            bytes(key, key_len),
            bytes(nonce, nonce_len),
            bytes(sealed, sealed_len),
            bytes(aad, aad_len),
            bytes_mut(text, text_len),
        )
    };
    whole::aeadkit_open(suite, key, nonce, sealed, aad, text)
}
