// The traits of the crate aead 0.5 over ChaCha20-Poly1305, to be copied; for another suite change the names and the length of the key.
use aead::consts::{U0, U12, U16, U32};
use aead::{AeadCore, AeadInPlace, Error, KeyInit, KeySizeUser, Nonce, Tag};
use aeadkit::{Aad, Key, Suite};

/// ChaCha20-Poly1305 of RFC 8439, by aeadkit.
#[derive(Clone)]
pub struct ChaCha20Poly1305(Key);

impl KeySizeUser for ChaCha20Poly1305 {
    type KeySize = U32;
}

impl KeyInit for ChaCha20Poly1305 {
    fn new(key: &aead::Key<Self>) -> Self {
        Self(Key::new(Suite::ChaCha20Poly1305, key).expect("the key is 32 bytes long"))
    }
}

impl AeadCore for ChaCha20Poly1305 {
    type NonceSize = U12;
    type TagSize = U16;
    type CiphertextOverhead = U0;
}

impl AeadInPlace for ChaCha20Poly1305 {
    fn encrypt_in_place_detached(
        &self,
        nonce: &Nonce<Self>,
        aad: &[u8],
        text: &mut [u8],
    ) -> aead::Result<Tag<Self>> {
        let tag = self.0.seal_in_place(nonce.as_ref(), text, Aad(aad)).map_err(|_| Error)?;
        Ok(Tag::<Self>::from(*tag))
    }

    fn decrypt_in_place_detached(
        &self,
        nonce: &Nonce<Self>,
        aad: &[u8],
        ciphertext: &mut [u8],
        tag: &Tag<Self>,
    ) -> aead::Result<()> {
        let opened = self.0.open_in_place(nonce.as_ref(), ciphertext, tag.as_ref(), Aad(aad));
        opened.map_err(|_| Error)
    }
}
