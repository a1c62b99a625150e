//! Sealings and openings in pieces.

use aeadkit::{Aad, Error, Key, Suite, TAG_BYTES, Tag};

const NONCE: [u8; 12] = [9; 12];
const AAD: Aad<'static> = Aad(b"a header of more than sixteen bytes");
const CUTS: [usize; 5] = [0, 1, 15, 16, 17];

fn key_of(suite: Suite) -> Key {
    Key::new(suite, &vec![7; suite.key_bytes()]).unwrap()
}

fn text_of(length: usize) -> Vec<u8> {
    (0..length).map(|i| (i * i) as u8).collect()
}

/// The two parts of a text, and an empty piece between them.
fn cut(text: &mut [u8], at: usize) -> [&mut [u8]; 3] {
    let (one, two) = text.split_at_mut(at);
    [one, &mut [], two]
}

/// Seals a text in pieces under any suite, which are cut at `first` and, in a second reading, at `second`. The key is dropped,
/// and so wiped, once the sealing is begun.
fn seal(key: Key, text: &mut [u8], first: usize, second: usize) -> Tag {
    let begun = (key.sealer(&NONCE, AAD), key.siv_sealer(&NONCE, AAD));
    drop(key);
    match begun {
        (Ok(mut sealer), Err(Error::UnknownSuite)) => {
            cut(text, first).into_iter().for_each(|piece| sealer.update(piece).unwrap());
            sealer.finish()
        }
        (Err(Error::UnknownSuite), Ok(mut sealer)) => {
            cut(text, first).into_iter().for_each(|piece| sealer.absorb(piece).unwrap());
            let (tag, mut writer) = sealer.begin_second();
            cut(text, second).into_iter().for_each(|piece| writer.update(piece).unwrap());
            let mut more = [1];
            assert_eq!((writer.update(&mut more), more), (Err(Error::SourceChanged), [1]));
            writer.finish().unwrap();
            tag
        }
        other => panic!("{other:?}"),
    }
}

#[test]
fn cuts_make_no_difference() {
    for key in Suite::ALL.map(key_of) {
        for length in [0, 1, 15, 16, 17, 33, 1000] {
            let text = text_of(length);
            let whole = key.seal_to_vec(&NONCE, &text, AAD).unwrap();
            let (body, tag) = whole.split_last_chunk::<TAG_BYTES>().unwrap();
            for (first, second) in CUTS.into_iter().zip(CUTS.into_iter().rev()) {
                let (first, second) = (first.min(length), second.min(length));
                let mut pieces = text.clone();
                assert_eq!(*seal(key.clone(), &mut pieces, first, second), *tag);
                assert_eq!(pieces, body);
                let mut opener = key.clone().opener(&NONCE, tag, AAD).unwrap();
                cut(&mut pieces, first).into_iter().for_each(|piece| opener.check(piece).unwrap());
                assert_eq!(pieces, body);
                let mut opener = opener.begin_second().unwrap();
                cut(&mut pieces, second).into_iter().for_each(|piece| opener.update(piece).unwrap());
                let mut more = [1];
                assert_eq!((opener.update(&mut more), more), (Err(Error::SourceChanged), [1]));
                opener.finish().unwrap();
                assert_eq!(pieces, text);
            }
        }
    }
}

#[test]
fn what_is_not_a_sealing_has_no_second_pass() {
    for key in Suite::ALL.map(key_of) {
        let mut body = text_of(40);
        let tag = key.seal_in_place(&NONCE, &mut body, AAD).unwrap();
        let first_pass = |nonce: &[u8; 12], tag: &[u8; 16], aad: Aad<'_>, body: &[u8]| {
            let mut opener = key.opener(nonce, tag, aad).unwrap();
            opener.check(body).unwrap();
            opener.begin_second().err()
        };
        assert_eq!(first_pass(&NONCE, &tag, AAD, &body), None);
        for byte in 0..TAG_BYTES {
            let mut other = *tag;
            other[byte] ^= 1;
            assert_eq!(first_pass(&NONCE, &other, AAD, &body), Some(Error::TagMismatch));
        }
        assert_eq!(first_pass(&[8; 12], &tag, AAD, &body), Some(Error::TagMismatch));
        assert_eq!(first_pass(&NONCE, &tag, Aad(b"another"), &body), Some(Error::TagMismatch));
        assert_eq!(first_pass(&NONCE, &tag, AAD, &body[1..]), Some(Error::TagMismatch));
        body[20] ^= 1;
        assert_eq!(first_pass(&NONCE, &tag, AAD, &body), Some(Error::TagMismatch));
    }
}

#[test]
fn a_second_pass_over_other_bytes_fails() {
    for key in Suite::ALL.map(key_of) {
        let mut body = text_of(40);
        let tag = key.seal_in_place(&NONCE, &mut body, AAD).unwrap();
        for second in [&body[..39], &[&[body[0] ^ 1], &body[1..]].concat()] {
            let mut opener = key.opener(&NONCE, &tag, AAD).unwrap();
            opener.check(&body).unwrap();
            let mut opener = opener.begin_second().unwrap();
            opener.update(&mut second.to_vec()).unwrap();
            assert_eq!(opener.finish(), Err(Error::SourceChanged));
        }
        for second in [text_of(39), vec![1; 40]] {
            let Ok(mut sealer) = key.siv_sealer(&NONCE, AAD) else { continue };
            sealer.absorb(&text_of(40)).unwrap();
            let (_, mut writer) = sealer.begin_second();
            writer.update(&mut second.clone()).unwrap();
            assert_eq!(writer.finish(), Err(Error::SourceChanged));
        }
    }
}
