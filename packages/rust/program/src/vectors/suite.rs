// Made from crates/vectors/src/suite.rt by tools/erase: not to be edited.
//! The formats of vector files, their suites, and the fields of a suite's records.

// The format of a vector file.
#[derive(Clone, Copy)]
pub(in crate::vectors) enum Format {
    One,
    // Format 2 adds key wrapping with padding, and cuts.
    Two,
}

// The length of an AES key.
#[derive(Clone, Copy)]
pub(in crate::vectors) enum Aes {
    Bits128,
    Bits192,
    Bits256,
}

// The algorithm with which a record's bytes are sealed or wrapped.
#[derive(Clone, Copy)]
pub(in crate::vectors) enum Algorithm {
    Aead(aeadkit::internals::aead::Suite),
    // Key wrapping.
    Wrap(Aes),
    // Key wrapping with padding.
    WrapPad(Aes),
}

// A line of a record between its suite and its end.
#[derive(Clone, Copy)]
pub(in crate::vectors) enum Field {
    Key,
    Nonce,
    Aad,
    Sealed,
}

const AEAD_FIELDS: [Field; 4] = [Field::Key, Field::Nonce, Field::Aad, Field::Sealed];

const WRAP_FIELDS: [Field; 2] = [Field::Key, Field::Sealed];

// The suites of both formats, and then those of format 2.
const SUITES: [Algorithm; 12] = [
    Algorithm::Aead(aeadkit::internals::aead::Suite::ChaCha20Poly1305),
    Algorithm::Aead(aeadkit::internals::aead::Suite::Aes128Gcm),
    Algorithm::Aead(aeadkit::internals::aead::Suite::Aes192Gcm),
    Algorithm::Aead(aeadkit::internals::aead::Suite::Aes256Gcm),
    Algorithm::Aead(aeadkit::internals::aead::Suite::Aes128GcmSiv),
    Algorithm::Aead(aeadkit::internals::aead::Suite::Aes256GcmSiv),
    Algorithm::Wrap(Aes::Bits128),
    Algorithm::Wrap(Aes::Bits192),
    Algorithm::Wrap(Aes::Bits256),
    Algorithm::WrapPad(Aes::Bits128),
    Algorithm::WrapPad(Aes::Bits192),
    Algorithm::WrapPad(Aes::Bits256),
];

impl Format {
    // The suites of the format.
    fn suites(self) -> &'static [Algorithm] {
        match self {
            Format::One => &SUITES[..9],
            Format::Two => &SUITES,
        }
    }

    // The format with this name.
    pub(in crate::vectors) fn named(name: &[u8]) -> Option<Format> {
        if name == b"1".as_slice() {
            Some(Format::One)
        } else if name == b"2".as_slice() {
            Some(Format::Two)
        } else {
            None
        }
    }
}

impl Field {
    // The name on its line.
    pub(in crate::vectors) fn name(self) -> &'static [u8] {
        match self {
            Field::Key => b"key".as_slice(),
            Field::Nonce => b"nonce".as_slice(),
            Field::Aad => b"aad".as_slice(),
            Field::Sealed => b"sealed".as_slice(),
        }
    }
}

impl Aes {
    // The number of bytes in a key.
    fn key_length(self) -> usize {
        match self {
            Aes::Bits128 => 16,
            Aes::Bits192 => 24,
            Aes::Bits256 => 32,
        }
    }
}

// The first of some suites with this name.
fn first_named(suites: &[Algorithm], name: &[u8]) -> Option<Algorithm> {
    suites.iter().copied().find(|suite| suite.is_named(name))
}

impl Algorithm {
    // The suite of a format with this name.
    pub(in crate::vectors) fn named(format: Format, name: &[u8]) -> Option<Algorithm> {
        first_named(format.suites(), name)
    }

    // Whether this is its name.
    fn is_named(self, name: &[u8]) -> bool {
        name == self.name()
    }

    // The name of a suite.
    fn name(self) -> &'static [u8] {
        match self {
            Algorithm::Aead(suite) => suite.name().as_bytes(),
            Algorithm::Wrap(Aes::Bits128) => b"aes-128-wrap".as_slice(),
            Algorithm::Wrap(Aes::Bits192) => b"aes-192-wrap".as_slice(),
            Algorithm::Wrap(Aes::Bits256) => b"aes-256-wrap".as_slice(),
            Algorithm::WrapPad(Aes::Bits128) => b"aes-128-wrap-pad".as_slice(),
            Algorithm::WrapPad(Aes::Bits192) => b"aes-192-wrap-pad".as_slice(),
            Algorithm::WrapPad(Aes::Bits256) => b"aes-256-wrap-pad".as_slice(),
        }
    }

    // The number of bytes in a key.
    fn key_length(self) -> usize {
        match self {
            Algorithm::Aead(suite) => suite.key_length(),
            Algorithm::Wrap(aes) | Algorithm::WrapPad(aes) => aes.key_length(),
        }
    }

    // Whether the suite is for authenticated encryption.
    pub(in crate::vectors) fn is_aead(self) -> bool {
        matches!(self, Algorithm::Aead(_))
    }

    // The fields of a record, in the order of their lines.
    pub(in crate::vectors) fn fields(self) -> &'static [Field] {
        match self {
            Algorithm::Aead(_) => &AEAD_FIELDS,
            Algorithm::Wrap(_) | Algorithm::WrapPad(_) => &WRAP_FIELDS,
        }
    }

    // Returns the length of a field in bytes, or `None` if it may have any length.
    pub(in crate::vectors) fn field_length(self, field: Field) -> Option<usize> {
        match field {
            Field::Key => Some(self.key_length()),
            Field::Nonce => Some(12),
            Field::Aad | Field::Sealed => None,
        }
    }
}
