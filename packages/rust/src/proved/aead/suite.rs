// Made from crates/aead/src/suite.rt by tools/erase: not to be edited.
//! The six suites: their names, numbers, lengths and limits (RFC 8439, 2.8; SP 800-38D, 5.2.1.1; RFC 8452, 6).

use crate::proved::octets::Fault;

/// A way of authenticated encryption: a cipher and a hash.
#[derive(Clone, Copy, Debug, PartialEq, Eq)]
pub enum Construction {
    /// ChaCha20 and Poly1305 (RFC 8439, 2.8).
    ChaChaPoly,
    /// AES-GCM (SP 800-38D).
    Gcm,
    /// AES-GCM-SIV (RFC 8452).
    GcmSiv,
}

impl Construction {
    // The most bytes that a text may have.
    pub(in crate::proved::aead) fn text_limit(self) -> u64 {
        match self {
            Construction::ChaChaPoly => (1 << 38) - 64,
            Construction::Gcm => (1 << 36) - 32,
            Construction::GcmSiv => 1 << 36,
        }
    }

    // The most bytes that associated data may have.
    fn aad_limit(self) -> u64 {
        match self {
            Construction::ChaChaPoly => u64::MAX,
            Construction::Gcm => (1 << 61) - 1,
            Construction::GcmSiv => 1 << 36,
        }
    }
}

/// A construction with a key length.
#[derive(Clone, Copy, Debug, PartialEq, Eq)]
pub enum Suite {
    /// ChaCha20 and Poly1305 (RFC 8439, 2.8), with a key of 32 bytes.
    ChaCha20Poly1305,
    /// AES-GCM (SP 800-38D) with a key of 16 bytes.
    Aes128Gcm,
    /// AES-GCM (SP 800-38D) with a key of 24 bytes.
    Aes192Gcm,
    /// AES-GCM (SP 800-38D) with a key of 32 bytes.
    Aes256Gcm,
    /// AES-GCM-SIV (RFC 8452) with a key of 16 bytes.
    Aes128GcmSiv,
    /// AES-GCM-SIV (RFC 8452) with a key of 32 bytes.
    Aes256GcmSiv,
}

impl Suite {
    /// The length of a nonce in bytes, in each suite.
    pub const NONCE_LENGTH: usize = 12;

    /// The length of a tag in bytes, in each suite: how much longer a sealing is than its text.
    pub const TAG_LENGTH: usize = 16;

    /// Returns the suite of a name: `chacha20-poly1305`, `aes-128-gcm`, `aes-192-gcm`, `aes-256-gcm`,
    /// `aes-128-gcm-siv` or `aes-256-gcm-siv`. For any other text the result is `None`.
    pub fn named(name: &str) -> Option<Suite> {
        match name {
            "chacha20-poly1305" => Some(Suite::ChaCha20Poly1305),
            "aes-128-gcm" => Some(Suite::Aes128Gcm),
            "aes-192-gcm" => Some(Suite::Aes192Gcm),
            "aes-256-gcm" => Some(Suite::Aes256Gcm),
            "aes-128-gcm-siv" => Some(Suite::Aes128GcmSiv),
            "aes-256-gcm-siv" => Some(Suite::Aes256GcmSiv),
            _ => None,
        }
    }

    /// Returns the name of a suite.
    pub fn name(self) -> &'static str {
        match self {
            Suite::ChaCha20Poly1305 => "chacha20-poly1305",
            Suite::Aes128Gcm => "aes-128-gcm",
            Suite::Aes192Gcm => "aes-192-gcm",
            Suite::Aes256Gcm => "aes-256-gcm",
            Suite::Aes128GcmSiv => "aes-128-gcm-siv",
            Suite::Aes256GcmSiv => "aes-256-gcm-siv",
        }
    }

    /// Returns the suite of a number: 1 to 6, in the order of this type's suites. For any other number the result is `None`.
    #[inline]
    pub fn from_number(number: u32) -> Option<Suite> {
        match number {
            1 => Some(Suite::ChaCha20Poly1305),
            2 => Some(Suite::Aes128Gcm),
            3 => Some(Suite::Aes192Gcm),
            4 => Some(Suite::Aes256Gcm),
            5 => Some(Suite::Aes128GcmSiv),
            6 => Some(Suite::Aes256GcmSiv),
            _ => None,
        }
    }

    /// Returns the number of a suite, 1 to 6, which stands for it at C.
    #[inline]
    pub fn number(self) -> u32 {
        match self {
            Suite::ChaCha20Poly1305 => 1,
            Suite::Aes128Gcm => 2,
            Suite::Aes192Gcm => 3,
            Suite::Aes256Gcm => 4,
            Suite::Aes128GcmSiv => 5,
            Suite::Aes256GcmSiv => 6,
        }
    }

    /// Returns the construction of a suite.
    #[inline]
    pub fn construction(self) -> Construction {
        match self {
            Suite::ChaCha20Poly1305 => Construction::ChaChaPoly,
            Suite::Aes128Gcm | Suite::Aes192Gcm | Suite::Aes256Gcm => Construction::Gcm,
            Suite::Aes128GcmSiv | Suite::Aes256GcmSiv => Construction::GcmSiv,
        }
    }

    /// Returns the length of a key in bytes: 16, 24 or 32.
    pub fn key_length(self) -> usize {
        match self {
            Suite::Aes128Gcm | Suite::Aes128GcmSiv => 16,
            Suite::Aes192Gcm => 24,
            Suite::ChaCha20Poly1305 | Suite::Aes256Gcm | Suite::Aes256GcmSiv => 32,
        }
    }

    /// Returns the most bytes that a text may have: 2^38 - 64 (RFC 8439, 2.8), 2^36 - 32 (SP 800-38D, 5.2.1.1) or 2^36 (RFC
    /// 8452, 6). A longer one is refused as `TextTooLong`.
    pub fn text_limit(self) -> u64 {
        self.construction().text_limit()
    }

    /// Returns the most bytes that associated data may have: 2^64 - 1 (RFC 8439, 2.8), 2^61 - 1 (SP 800-38D, 5.2.1.1, which
    /// counts bits) or 2^36 (RFC 8452, 6). A longer one is refused as `AadTooLong`.
    pub fn aad_limit(self) -> u64 {
        self.construction().aad_limit()
    }

    /// Compares the length of a text with the limit. The only fault is `TextTooLong`, if it is longer than
    /// [`Suite::text_limit`].
    pub fn check_text(self, text: &[u8]) -> Result<(), Fault> {
        if text.len() as u64 > self.text_limit() {
            return Err(Fault::TextTooLong);
        }
        Ok(())
    }

    /// Compares the length of associated data with the limit. The only fault is `AadTooLong`, if it is longer than
    /// [`Suite::aad_limit`].
    pub fn check_aad(self, aad: &[u8]) -> Result<(), Fault> {
        if aad.len() as u64 > self.aad_limit() {
            return Err(Fault::AadTooLong);
        }
        Ok(())
    }
}

const _: () = assert!(Suite::TAG_LENGTH == 16);

const _: () = assert!(Suite::NONCE_LENGTH == 12);
