//! The facts that the API states are those of the proved source.

use crate::proved::capi::{facts, key, opener, sealer, siv};
use crate::{CheckedOpener, Error, Key, Opener, Sealer, SivSealer, SivWriter, Suite, Tag};
use std::boxed::Box;
use std::format;
use std::string::ToString;

#[test]
fn suites() {
    for (suite, number) in Suite::ALL.into_iter().zip(1..) {
        let name = suite.name();
        assert_eq!((suite as u32, Suite::try_from(number)), (number, Ok(suite)));
        assert_eq!((format!("{suite:>20}"), name.parse()), (format!("{name:>20}"), Ok(suite)));
        assert_eq!(suite.key_bytes(), facts::aeadkit_key_length(number));
        assert_eq!(suite.text_limit(), facts::aeadkit_text_limit(number));
        assert_eq!(suite.aad_limit(), facts::aeadkit_aad_limit(number));
    }
    for number in [0, 7, u32::MAX] {
        assert_eq!((Suite::try_from(number), facts::aeadkit_key_length(number)), (Err(Error::UnknownSuite), 0));
    }
    for name in ["", "AES-128-GCM", "aes-128-gcm ", "aes-128"] {
        assert_eq!(name.parse::<Suite>(), Err(Error::UnknownSuite));
    }
}

#[test]
fn structs() {
    assert_eq!(size_of::<Key>(), key::aeadkit_key_size() + 8);
    assert_eq!(size_of::<Sealer>(), sealer::aeadkit_sealer_size());
    assert_eq!([size_of::<Opener>(), size_of::<CheckedOpener>()], [opener::aeadkit_opener_size(); 2]);
    assert_eq!([size_of::<SivSealer>(), size_of::<SivWriter>()], [siv::aeadkit_siv_size(); 2]);
}

#[test]
fn version() {
    let number = facts::aeadkit_version();
    let version = format!("{}.{}.{}", number / 10000, number / 100 % 100, number % 100);
    assert_eq!(version, env!("CARGO_PKG_VERSION"));
}

#[test]
fn threads_and_errors() {
    fn may_be_shared<T: Send + Sync + Unpin + 'static>() {}
    may_be_shared::<(Key, Suite, Tag, Sealer, Opener, CheckedOpener, SivSealer, SivWriter)>();
    let error: Box<dyn std::error::Error + Send + Sync> = Error::TagMismatch.into();
    assert_eq!(error.downcast_ref(), Some(&Error::TagMismatch));
    assert_eq!(error.to_string(), "authentication failed");
}
