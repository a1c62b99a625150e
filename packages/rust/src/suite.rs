//! The suites, by number and by name.

use crate::Error;
use core::fmt;
use core::str::FromStr;

/// An algorithm of authenticated encryption. Each takes a nonce of 12 bytes and makes a tag of 16 bytes.
///
/// Take ChaCha20-Poly1305 with a counter as nonce, which is stored before it is used; AES-256-GCM-SIV where a nonce may
/// come twice or nonces are drawn at random, at most 2^32 under one key; and AES-GCM where a standard demands it.
///
/// The numbers are those of the library's other packages. `Display` and `FromStr` use the names that the command takes.
#[derive(Clone, Copy, Debug, PartialEq, Eq, Hash)]
#[repr(u32)]
pub enum Suite {
    /// `chacha20-poly1305` of RFC 8439: a key of 32 bytes, at most 2^38 - 64 bytes of text.
    ChaCha20Poly1305 = 1,
    /// `aes-128-gcm` of SP 800-38D: a key of 16 bytes, at most 2^36 - 32 bytes of text.
    Aes128Gcm = 2,
    /// `aes-192-gcm` of SP 800-38D: a key of 24 bytes, at most 2^36 - 32 bytes of text.
    Aes192Gcm = 3,
    /// `aes-256-gcm` of SP 800-38D: a key of 32 bytes, at most 2^36 - 32 bytes of text.
    Aes256Gcm = 4,
    /// `aes-128-gcm-siv` of RFC 8452: a key of 16 bytes, at most 2^36 bytes of text and as many of associated data.
    Aes128GcmSiv = 5,
    /// `aes-256-gcm-siv` of RFC 8452: a key of 32 bytes, at most 2^36 bytes of text and as many of associated data.
    Aes256GcmSiv = 6,
}

impl Suite {
    /// All suites, in the order of their numbers.
    pub const ALL: [Suite; 6] = [
        Suite::ChaCha20Poly1305,
        Suite::Aes128Gcm,
        Suite::Aes192Gcm,
        Suite::Aes256Gcm,
        Suite::Aes128GcmSiv,
        Suite::Aes256GcmSiv,
    ];

    /// The length of a key in bytes.
    pub const fn key_bytes(self) -> usize {
        match self {
            Suite::Aes128Gcm | Suite::Aes128GcmSiv => 16,
            Suite::Aes192Gcm => 24,
            Suite::ChaCha20Poly1305 | Suite::Aes256Gcm | Suite::Aes256GcmSiv => 32,
        }
    }

    /// The length of the longest text in bytes.
    pub const fn text_limit(self) -> u64 {
        match self {
            Suite::ChaCha20Poly1305 => (1 << 38) - 64,
            Suite::Aes128Gcm | Suite::Aes192Gcm | Suite::Aes256Gcm => (1 << 36) - 32,
            Suite::Aes128GcmSiv | Suite::Aes256GcmSiv => 1 << 36,
        }
    }

    /// The length of the longest associated data in bytes.
    pub const fn aad_limit(self) -> u64 {
        match self {
            Suite::ChaCha20Poly1305 => u64::MAX,
            Suite::Aes128Gcm | Suite::Aes192Gcm | Suite::Aes256Gcm => (1 << 61) - 1,
            Suite::Aes128GcmSiv | Suite::Aes256GcmSiv => 1 << 36,
        }
    }

    /// The name that the command takes, as in `aes-256-gcm-siv`.
    pub const fn name(self) -> &'static str {
        match self {
            Suite::ChaCha20Poly1305 => "chacha20-poly1305",
            Suite::Aes128Gcm => "aes-128-gcm",
            Suite::Aes192Gcm => "aes-192-gcm",
            Suite::Aes256Gcm => "aes-256-gcm",
            Suite::Aes128GcmSiv => "aes-128-gcm-siv",
            Suite::Aes256GcmSiv => "aes-256-gcm-siv",
        }
    }
}

/// Writes the name.
impl fmt::Display for Suite {
    fn fmt(&self, f: &mut fmt::Formatter<'_>) -> fmt::Result {
        f.pad(self.name())
    }
}

/// Reads a name in lower case. Any other text is `UnknownSuite`.
impl FromStr for Suite {
    type Err = Error;

    fn from_str(name: &str) -> Result<Suite, Error> {
        Suite::ALL.into_iter().find(|suite| suite.name() == name).ok_or(Error::UnknownSuite)
    }
}

/// Finds the suite of a number from 1 to 6. Any other number is `UnknownSuite`.
impl TryFrom<u32> for Suite {
    type Error = Error;

    fn try_from(number: u32) -> Result<Suite, Error> {
        Suite::ALL.into_iter().find(|suite| *suite as u32 == number).ok_or(Error::UnknownSuite)
    }
}
