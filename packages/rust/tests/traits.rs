//! `examples/aead/traits.rs`, which has the traits of the crate `aead` 0.5 over `Key`, over a stub of that crate.

/// What the code uses of `aead` 0.5. There a length is a type of `typenum`, of which an array of `generic_array` is made; here it
/// is the array.
#[rustfmt::skip]
mod aead {
    pub struct Array<const N: usize>([u8; N]);

    impl<const N: usize> From<[u8; N]> for Array<N> {
        fn from(bytes: [u8; N]) -> Self { Array(bytes) }
    }
    impl<const N: usize> AsRef<[u8; N]> for Array<N> {
        fn as_ref(&self) -> &[u8; N] { &self.0 }
    }
    impl<const N: usize> std::ops::Deref for Array<N> {
        type Target = [u8];
        fn deref(&self) -> &[u8] { &self.0 }
    }

    pub mod consts {
        pub type U0 = super::Array<0>;
        pub type U12 = super::Array<12>;
        pub type U16 = super::Array<16>;
        pub type U32 = super::Array<32>;
    }

    #[derive(Debug, PartialEq)]
    pub struct Error;
    pub type Result<T> = core::result::Result<T, Error>;
    pub type Key<A> = <A as KeySizeUser>::KeySize;
    pub type Nonce<A> = <A as AeadCore>::NonceSize;
    pub type Tag<A> = <A as AeadCore>::TagSize;

    pub trait KeySizeUser { type KeySize; }
    pub trait KeyInit: KeySizeUser + Sized { fn new(key: &Key<Self>) -> Self; }
    pub trait AeadCore { type NonceSize; type TagSize; type CiphertextOverhead; }
    pub trait AeadInPlace: AeadCore {
        fn encrypt_in_place_detached(&self, nonce: &Nonce<Self>, aad: &[u8], text: &mut [u8]) -> Result<Tag<Self>>;
        fn decrypt_in_place_detached(
            &self, nonce: &Nonce<Self>, aad: &[u8], ciphertext: &mut [u8], tag: &Tag<Self>,
        ) -> Result<()>;
    }
}

include!("../examples/aead/traits.rs");

#[test]
fn there_and_back() {
    let (cipher, nonce) = (ChaCha20Poly1305::new(&[7; 32].into()), [9; 12].into());
    let mut text = *b"attack at dawn";
    let tag = cipher.encrypt_in_place_detached(&nonce, b"to: general", &mut text).unwrap();
    let key = Key::new(Suite::ChaCha20Poly1305, &[7; 32]).unwrap();
    key.open_in_place(&[9; 12], &mut text.clone(), tag.as_ref(), Aad(b"to: general")).unwrap();
    assert_eq!(cipher.decrypt_in_place_detached(&nonce, b"to: admiral", &mut text, &tag), Err(Error));
    cipher.decrypt_in_place_detached(&nonce, b"to: general", &mut text, &tag).unwrap();
    assert_eq!(&text, b"attack at dawn");
}
