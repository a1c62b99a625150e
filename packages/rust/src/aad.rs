//! Associated data.

/// Associated data: bytes that are authenticated and not encrypted, like the header of a message. A sealing opens only with
/// the associated data that it was sealed with.
///
/// It is written as `Aad(b"to: general")` or `Aad(&header)`, and without any as [`Aad::empty`]. It is a type of its own so that
/// a call with the text and the associated data exchanged does not compile: the text would be lost.
#[derive(Clone, Copy, Debug, Default, PartialEq, Eq, Hash)]
pub struct Aad<'a>(pub &'a [u8]);

impl Aad<'_> {
    /// No associated data.
    pub const fn empty() -> Aad<'static> {
        Aad(&[])
    }
}

/// The bytes of a string, a vector or a slice, as in `Aad::from("to: general")`.
impl<'a, Bytes: AsRef<[u8]> + ?Sized> From<&'a Bytes> for Aad<'a> {
    fn from(bytes: &'a Bytes) -> Aad<'a> {
        Aad(bytes.as_ref())
    }
}
