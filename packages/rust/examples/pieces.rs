//! A text of any size, sealed and opened in pieces.

use aeadkit::{Aad, Key, Suite, Tag};
use std::io::{self, Cursor, Error, ErrorKind, Read, Seek, Write};

/// Runs a step on each piece of a source, up to its end.
fn each_piece(from: &mut impl Read, mut step: impl FnMut(&mut [u8]) -> io::Result<()>) -> io::Result<()> {
    let mut buffer = vec![0; 1 << 16];
    loop {
        match from.read(&mut buffer) {
            Ok(0) => return Ok(()),
            Ok(length) => step(&mut buffer[..length])?,
            Err(error) if error.kind() == ErrorKind::Interrupted => {}
            Err(error) => return Err(error),
        }
    }
}

/// Writes the ciphertext of a text, and returns its tag. Store or send it with the nonce.
fn seal(key: &Key, nonce: &[u8; 12], aad: Aad, text: &mut impl Read, to: &mut impl Write) -> io::Result<Tag> {
    let mut sealer = key.sealer(nonce, aad).map_err(Error::other)?;
    each_piece(text, |piece| {
        sealer.update(piece).map_err(Error::other)?;
        to.write_all(piece)
    })?;
    Ok(sealer.finish())
}

/// Writes the text of a ciphertext, which is read twice: nothing is written unless the first pass finds that it is authentic.
/// If the second pass fails, because the source has changed, throw away what was written.
fn open(
    key: &Key,
    nonce: &[u8; 12],
    tag: &[u8; 16],
    aad: Aad,
    from: &mut (impl Read + Seek),
    to: &mut impl Write,
) -> io::Result<()> {
    let invalid = |error| Error::new(ErrorKind::InvalidData, error);
    let mut opener = key.opener(nonce, tag, aad).map_err(invalid)?;
    from.rewind()?;
    each_piece(from, |piece| opener.check(piece).map_err(invalid))?;
    let mut opener = opener.begin_second().map_err(invalid)?;
    from.rewind()?;
    each_piece(from, |piece| {
        opener.update(piece).map_err(invalid)?;
        to.write_all(piece)
    })?;
    opener.finish().map_err(invalid)
}

fn main() -> io::Result<()> {
    let key = Key::new(Suite::ChaCha20Poly1305, &[7; 32]).map_err(Error::other)?; // for a trial: a real key is random
    let (nonce, aad, text) = ([0; 12], Aad(b"video.mp4"), vec![5; 1_000_000]);
    let (mut sealed, mut opened) = (vec![], vec![]);
    let tag = seal(&key, &nonce, aad, &mut &text[..], &mut sealed)?;
    open(&key, &nonce, &tag, aad, &mut Cursor::new(&sealed), &mut opened)?;
    assert_eq!(opened, text);
    sealed[500_000] ^= 1;
    let refused = open(&key, &nonce, &tag, aad, &mut Cursor::new(&sealed), &mut io::sink());
    println!("opened {} bytes; after a change: {}", opened.len(), refused.unwrap_err());
    Ok(())
}

#[test]
fn there_and_back() {
    main().unwrap();
}
