//! Whole messages and key wrapping: each call, each error that it has, and what is left after it.

use aeadkit::{
    Aad, Error, Key, Suite, TAG_BYTES, WrappingKey, unwrap, unwrap_padded, unwrap_padded_to_vec, unwrap_to_vec, wrap,
    wrap_padded, wrap_padded_to_vec, wrap_to_vec,
};

const NONCE: [u8; 12] = [9; 12];
const AAD: Aad<'static> = Aad(b"a header of more than sixteen bytes");
const LENGTHS: [usize; 7] = [0, 1, 15, 16, 17, 300, 4097];
/// What an output holds before a call.
const BEFORE: u8 = 0xaa;

fn key_of(suite: Suite) -> Key {
    Key::new(suite, &vec![7; suite.key_bytes()]).unwrap()
}

fn text_of(length: usize) -> Vec<u8> {
    (0..length).map(|i| (i * i) as u8).collect()
}

#[test]
fn all_forms_agree() {
    for key in Suite::ALL.map(key_of) {
        for (length, aad) in LENGTHS.into_iter().flat_map(|length| [(length, AAD), (length, Aad::empty())]) {
            let text = text_of(length);
            let whole = key.seal_to_vec(&NONCE, &text, aad).unwrap();
            assert_eq!(key.open_to_vec(&NONCE, &whole, aad).as_ref(), Ok(&text));
            let (mut sealed, mut opened) = (vec![BEFORE; length + TAG_BYTES + 1], vec![BEFORE; length + TAG_BYTES]);
            for wrong in [length, length + TAG_BYTES - 1, length + TAG_BYTES + 1] {
                assert_eq!(key.seal(&NONCE, &text, &mut sealed[..wrong], aad), Err(Error::OutputLength));
            }
            for wrong in [length + 1, length + TAG_BYTES] {
                assert_eq!(key.open(&NONCE, &whole, &mut opened[..wrong], aad), Err(Error::OutputLength));
            }
            assert!([&sealed[..], &opened].concat().iter().all(|byte| *byte == BEFORE));
            key.seal(&NONCE, &text, &mut sealed[..length + TAG_BYTES], aad).unwrap();
            key.open(&NONCE, &whole, &mut opened[..length], aad).unwrap();
            assert_eq!(sealed, [&whole[..], &[BEFORE]].concat());
            assert_eq!(opened, [&text[..], &[BEFORE; TAG_BYTES]].concat());
            let mut buffer = text.clone();
            let tag = key.seal_in_place(&NONCE, &mut buffer, aad).unwrap();
            assert_eq!((&buffer[..], &tag[..]), whole.split_at(length));
            key.open_in_place(&NONCE, &mut buffer, &tag, aad).unwrap();
            assert_eq!(buffer, text);
        }
    }
}

#[test]
fn keys() {
    for suite in Suite::ALL {
        for length in [0, suite.key_bytes() - 1, suite.key_bytes() + 1] {
            assert_eq!(Key::new(suite, &vec![7; length]).unwrap_err(), Error::KeyLength);
        }
        let (key, copy) = (key_of(suite), key_of(suite).clone());
        assert_eq!((key.suite(), format!("{key:?}")), (suite, format!("Key({suite:?})")));
        let sealed = key.seal_to_vec(&NONCE, b"text", AAD).unwrap();
        drop(key);
        assert_eq!(copy.open_to_vec(&NONCE, &sealed, AAD).unwrap(), b"text");
    }
}

/// Wants all calls to refuse a sealing, to leave zeros in an output, and to leave the ciphertext in place.
fn refused(key: &Key, nonce: &[u8; 12], sealed: &[u8], aad: Aad<'_>) {
    let (body, tag) = sealed.split_last_chunk().unwrap();
    let (mut output, mut buffer) = (vec![BEFORE; body.len() + 1], body.to_vec());
    assert_eq!(key.open(nonce, sealed, &mut output[..body.len()], aad), Err(Error::TagMismatch));
    assert_eq!(output, [vec![0; body.len()], vec![BEFORE]].concat());
    assert_eq!(key.open_in_place(nonce, &mut buffer, tag, aad), Err(Error::TagMismatch));
    assert_eq!(buffer, body);
    assert_eq!(key.open_to_vec(nonce, sealed, aad), Err(Error::TagMismatch));
}

#[test]
fn what_is_not_a_sealing_does_not_open() {
    for suite in Suite::ALL {
        let key = key_of(suite);
        let sealed = key.seal_to_vec(&NONCE, &text_of(40), AAD).unwrap();
        for byte in 0..sealed.len() {
            let mut changed = sealed.clone();
            changed[byte] ^= 0x10;
            refused(&key, &NONCE, &changed, AAD);
        }
        refused(&Key::new(suite, &vec![8; suite.key_bytes()]).unwrap(), &NONCE, &sealed, AAD);
        refused(&key, &[8; 12], &sealed, AAD);
        refused(&key, &NONCE, &sealed, Aad(b"another header"));
        refused(&key, &NONCE, &sealed[1..], AAD);
        for length in [0, 1, 15] {
            assert_eq!(key.open(&NONCE, &sealed[..length], &mut [], AAD), Err(Error::TooShort));
            assert_eq!(key.open_to_vec(&NONCE, &sealed[..length], AAD), Err(Error::TooShort));
        }
    }
}

#[test]
fn wrapping() {
    for key in [&[3; 16][..], &[3; 24], &[3; 32]].map(WrappingKey) {
        for (length, is_padded) in (1..18).map(|length| (length, true)).chain([(16, false), (24, false), (1000, false)])
        {
            let (text, room) = (text_of(length), length.next_multiple_of(8));
            let seal = |output: &mut [u8]| match is_padded {
                true => wrap_padded(key, &text, output),
                false => wrap(key, &text, output),
            };
            let open = |wrapped: &[u8], output: &mut [u8]| match is_padded {
                true => unwrap_padded(key, wrapped, output).map(|text| text.len()),
                false => unwrap(key, wrapped, output).map(|()| length),
            };
            let mut wrapped = vec![BEFORE; room + 9];
            for wrong in [room, room + 7, room + 9] {
                assert_eq!(seal(&mut wrapped[..wrong]), Err(Error::OutputLength));
            }
            assert_eq!(wrapped, vec![BEFORE; room + 9]);
            assert_eq!((seal(&mut wrapped[..room + 8]), wrapped.pop()), (Ok(()), Some(BEFORE)));
            let (made, opened) = match is_padded {
                true => (wrap_padded_to_vec(key, &text), unwrap_padded_to_vec(key, &wrapped)),
                false => (wrap_to_vec(key, &text), unwrap_to_vec(key, &wrapped)),
            };
            assert_eq!((made.as_ref(), opened.as_ref()), (Ok(&wrapped), Ok(&text)));

            let mut output = vec![BEFORE; room + 1];
            for wrong in [room - 1, room + 1] {
                assert_eq!(open(&wrapped, &mut output[..wrong]), Err(Error::OutputLength));
            }
            assert_eq!(output, vec![BEFORE; room + 1]);
            assert_eq!(open(&wrapped, &mut output[..room]), Ok(length));
            assert_eq!(output, [text, vec![0; room - length], vec![BEFORE]].concat());
            wrapped[3] ^= 1;
            assert_eq!(open(&wrapped, &mut output[..room]), Err(Error::WrapIntegrity));
            assert_eq!(output, [vec![0; room], vec![BEFORE]].concat());
        }
        let refused = |call: fn(WrappingKey<'_>, &[u8]) -> Result<Vec<u8>, Error>, lengths: &[usize]| {
            lengths.iter().for_each(|length| assert_eq!(call(key, &text_of(*length)), Err(Error::WrapLength)));
            assert_eq!(call(WrappingKey(&[3; 15]), &[0; 24]), Err(Error::KeyLength));
        };
        refused(wrap_to_vec, &[0, 8, 15, 17]);
        refused(unwrap_to_vec, &[0, 8, 16, 23, 25]);
        refused(wrap_padded_to_vec, &[0]);
        refused(unwrap_padded_to_vec, &[0, 8, 15, 17]);
    }
    assert_eq!(format!("{:?}", WrappingKey(&[3; 16])), "WrappingKey");
}

unsafe extern "C" {
    fn mmap(place: *mut u8, length: usize, protection: i32, flags: i32, file: i32, offset: i64) -> *mut u8;
}

/// Zeros past each limit, in pages that no call touches; or nothing if the system does not give so many addresses.
fn vast() -> Option<&'static mut [u8]> {
    let (length, readable_and_writable, private_without_file_or_reserve) = ((1 << 38) + TAG_BYTES, 3, 0x4022);
    // SAFETY: unless it is refused with -1, the new memory has this length, holds zeros, and is nobody else's.
    unsafe {
        let start = mmap(std::ptr::null_mut(), length, readable_and_writable, private_without_file_or_reserve, -1, 0);
        (start.addr() != usize::MAX).then(|| std::slice::from_raw_parts_mut(start, length))
    }
}

#[test]
fn what_is_too_long_is_refused() {
    let Some(vast) = vast() else { return eprintln!("skipped: the system does not give 256 GiB of addresses") };
    for suite in Suite::ALL {
        let (key, past, none) = (key_of(suite), suite.text_limit() as usize + 1, Aad::empty());
        let (mut piece, long) = (text_of(100), Error::TextTooLong);
        let sealed = key.seal_to_vec(&NONCE, &piece, none).unwrap();
        let (body, tag) = sealed.split_last_chunk().unwrap();
        assert_eq!(key.seal_in_place(&NONCE, &mut vast[..past], none), Err(long));
        assert_eq!(key.open_in_place(&NONCE, &mut vast[..past], tag, none), Err(long));
        assert_eq!(key.seal(&NONCE, &vast[..past], &mut [], none), Err(long));
        assert_eq!(key.open(&NONCE, &vast[..past + TAG_BYTES], &mut [], none), Err(long));
        // in pieces a shorter one may follow
        let mut opener = key.opener(&NONCE, tag, none).unwrap();
        assert_eq!(opener.check(&vast[..past]), Err(long));
        opener.check(body).unwrap();
        assert!(opener.begin_second().is_ok());
        if let Ok(mut sealer) = key.sealer(&NONCE, none) {
            assert_eq!(sealer.update(&mut vast[..past]), Err(long));
            sealer.update(&mut piece).unwrap();
            assert_eq!(*sealer.finish(), *tag);
        } else {
            let mut sealer = key.siv_sealer(&NONCE, none).unwrap();
            assert_eq!(sealer.absorb(&vast[..past]), Err(long));
            sealer.absorb(&piece).unwrap();
            assert_eq!(*sealer.begin_second().0, *tag);
        }
        if suite.aad_limit() < vast.len() as u64 {
            let (aad, long) = (Aad(&vast[..suite.aad_limit() as usize + 1]), Error::AadTooLong);
            assert_eq!(key.seal(&NONCE, &piece, &mut [], aad), Err(long));
            assert_eq!(key.open(&NONCE, &sealed, &mut [], aad), Err(long));
            assert_eq!(key.seal_in_place(&NONCE, &mut piece, aad), Err(long));
            assert_eq!(key.open_in_place(&NONCE, &mut piece, tag, aad), Err(long));
            assert_eq!(key.siv_sealer(&NONCE, aad).unwrap_err(), long);
            assert_eq!(key.opener(&NONCE, tag, aad).unwrap_err(), long);
        }
    }
    let (key, wrapped) = (WrappingKey(&[3; 16]), &vast[..(1 << 32) + 16]);
    assert_eq!(wrap_padded(key, &vast[..1 << 32], &mut []), Err(Error::TextTooLong));
    assert_eq!(unwrap_padded(key, wrapped, &mut []), Err(Error::TextTooLong));
}
