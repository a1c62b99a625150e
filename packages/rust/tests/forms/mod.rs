//! All forms of a call, for a message whose sealing is known.

use aeadkit::{Aad, Error, Key};

/// Wants each form to seal the text to these bytes, and to open them again. Pieces have this length.
pub fn agree(key: &Key, nonce: &[u8; 12], text: &[u8], sealed: &[u8], aad: Aad<'_>, piece: usize) {
    assert_eq!(key.seal_to_vec(nonce, text, aad).unwrap(), sealed);
    assert_eq!(key.open_to_vec(nonce, sealed, aad).unwrap(), text);
    let mut body = text.to_vec();
    let tag = key.seal_in_place(nonce, &mut body, aad).unwrap();
    assert_eq!([&body[..], &tag[..]].concat(), sealed);
    key.open_in_place(nonce, &mut body, &tag, aad).unwrap();
    assert_eq!(body, text);

    let tag = match key.sealer(nonce, aad) {
        Ok(mut sealer) => {
            body.chunks_mut(piece).for_each(|piece| sealer.update(piece).unwrap());
            sealer.finish()
        }
        Err(_) => {
            let mut sealer = key.siv_sealer(nonce, aad).unwrap();
            body.chunks(piece).for_each(|piece| sealer.absorb(piece).unwrap());
            let (tag, mut writer) = sealer.begin_second();
            body.chunks_mut(piece).for_each(|piece| writer.update(piece).unwrap());
            writer.finish().unwrap();
            tag
        }
    };
    assert_eq!([&body[..], &tag[..]].concat(), sealed);
    let mut opener = key.opener(nonce, &tag, aad).unwrap();
    body.chunks(piece).for_each(|piece| opener.check(piece).unwrap());
    let mut opener = opener.begin_second().unwrap();
    body.chunks_mut(piece).for_each(|piece| opener.update(piece).unwrap());
    opener.finish().unwrap();
    assert_eq!(body, text);
}

/// Wants each form to refuse what is no sealing.
#[allow(dead_code, reason = "random messages are all sealings")]
pub fn refuse(key: &Key, nonce: &[u8; 12], sealed: &[u8], aad: Aad<'_>, piece: usize) {
    let Some((body, tag)) = sealed.split_last_chunk() else {
        return assert_eq!(key.open_to_vec(nonce, sealed, aad), Err(Error::TooShort));
    };
    assert_eq!(key.open_to_vec(nonce, sealed, aad), Err(Error::TagMismatch));
    assert_eq!(key.open_in_place(nonce, &mut body.to_vec(), tag, aad), Err(Error::TagMismatch));
    let mut opener = key.opener(nonce, tag, aad).unwrap();
    body.chunks(piece).for_each(|piece| opener.check(piece).unwrap());
    assert_eq!(opener.begin_second().unwrap_err(), Error::TagMismatch);
}
