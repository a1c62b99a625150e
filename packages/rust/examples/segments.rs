//! Seals or opens a text of any size in segments, from pipe to pipe: segments seal|open KEYFILE LABEL < IN > OUT
//!
//! `docs/SEGMENTS.md` of the repository is the format, which the examples in C, Python and JavaScript have too. KEYFILE holds a
//! wrapping key of 32 random bytes. Opening writes a segment as soon as it is authentic. If a later one is refused, the status
//! is 1: throw OUT away.

use aeadkit::{Aad, Error, Key, NONCE_BYTES, Suite, TAG_BYTES, WrappingKey, unwrap, wrap};
use std::io::{self, ErrorKind::InvalidData, Read, Write};

const MAGIC: &[u8; 4] = b"SEG1";
const HEAD: usize = 48;
/// The most bytes of text in a segment.
const LONGEST: usize = 1 << 20;

fn invalid(error: Error) -> io::Error {
    io::Error::new(InvalidData, error)
}

/// Runs a step on each segment and its nonce. An empty source has one segment, which is empty too.
fn segments(
    from: &mut impl Read,
    length: usize,
    mut step: impl FnMut(&[u8; NONCE_BYTES], &mut [u8]) -> io::Result<()>,
) -> io::Result<()> {
    let mut read = || {
        let mut segment = Vec::with_capacity(length);
        from.take(length as u64).read_to_end(&mut segment).map(|_| segment)
    };
    let mut segment = read()?;
    for number in 0u64.. {
        let following = read()?;
        let mut nonce = [0; NONCE_BYTES];
        nonce[3..11].copy_from_slice(&number.to_be_bytes());
        nonce[11] = following.is_empty().into();
        step(&nonce, &mut segment)?;
        if following.is_empty() {
            break;
        }
        segment = following;
    }
    Ok(())
}

/// Seals a text under a data key that no other text has.
fn seal(
    wrapping_key: WrappingKey<'_>,
    label: &[u8],
    data_key: &[u8; 32],
    length: usize,
    from: &mut impl Read,
    to: &mut impl Write,
) -> io::Result<()> {
    let mut head = [0; HEAD];
    head[..4].copy_from_slice(MAGIC);
    head[4..8].copy_from_slice(&(length as u32).to_be_bytes());
    wrap(wrapping_key, data_key, &mut head[8..]).map_err(invalid)?;
    to.write_all(&head)?;
    let (key, aad) = (Key::new(Suite::ChaCha20Poly1305, data_key).map_err(invalid)?, [&head, label].concat());
    segments(from, length, |nonce, segment| {
        let tag = key.seal_in_place(nonce, segment, Aad(&aad)).map_err(invalid)?;
        to.write_all(segment)?;
        to.write_all(&*tag)
    })?;
    to.flush() // a buffer that is dropped hides that it could not write
}

fn open(wrapping_key: WrappingKey<'_>, label: &[u8], from: &mut impl Read, to: &mut impl Write) -> io::Result<()> {
    let (mut head, mut data_key) = ([0; HEAD], [0; 32]);
    from.read_exact(&mut head)?;
    let length = u32::from_be_bytes([head[4], head[5], head[6], head[7]]) as usize;
    if !head.starts_with(MAGIC) || !(1..=LONGEST).contains(&length) {
        return Err(io::Error::new(InvalidData, "not a text in segments"));
    }
    unwrap(wrapping_key, &head[8..], &mut data_key).map_err(invalid)?;
    let (key, aad) = (Key::new(Suite::ChaCha20Poly1305, &data_key).map_err(invalid)?, [&head, label].concat());
    segments(from, length + TAG_BYTES, |nonce, segment| {
        let (text, tag) = segment.split_last_chunk_mut().ok_or(invalid(Error::TooShort))?;
        key.open_in_place(nonce, text, tag, Aad(&aad)).map_err(invalid)?;
        to.write_all(text)
    })?;
    to.flush()
}

fn main() -> io::Result<()> {
    let words: Vec<_> = std::env::args().skip(1).collect();
    let ["seal" | "open", key_file, label] = words.iter().map(String::as_str).collect::<Vec<_>>()[..] else {
        return Err(io::Error::other("usage: segments seal|open KEYFILE LABEL < IN > OUT"));
    };
    if label.len() > 200 {
        return Err(io::Error::other("LABEL is longer than 200 bytes"));
    }
    let key: [u8; 32] =
        std::fs::read(key_file)?.try_into().map_err(|_| io::Error::other("KEYFILE is not 32 bytes long"))?;
    let (from, to) = (&mut io::stdin().lock(), &mut io::stdout().lock());
    if words[0] == "open" {
        return open(WrappingKey(&key), label.as_bytes(), from, to);
    }
    let mut data_key = [0; 32];
    std::fs::File::open("/dev/urandom")?.read_exact(&mut data_key)?;
    seal(WrappingKey(&key), label.as_bytes(), &data_key, LONGEST, from, to)
}

#[cfg(test)]
mod tests {
    use super::*;

    const KEY: WrappingKey<'static> = WrappingKey(b"a key of 32 bytes for the sample");

    fn sealed(text: &[u8], data_key: &[u8; 32]) -> Vec<u8> {
        let mut to = vec![];
        seal(KEY, b"sample", data_key, 16, &mut &text[..], &mut to).unwrap();
        to
    }

    /// The text that opens, and whether it is the whole.
    fn opened(sealed: &[u8], label: &[u8]) -> (Vec<u8>, bool) {
        let mut to = vec![];
        let result = open(KEY, label, &mut &sealed[..], &mut to);
        (to, result.is_ok())
    }

    #[test]
    fn the_sample_opens_and_is_what_its_text_becomes() {
        let path = concat!(env!("CARGO_MANIFEST_DIR"), "/../c/examples/sample.segments");
        let Ok(sample) = std::fs::read(path) else {
            return eprintln!("skipped: {path} is not there, as outside the repository");
        };
        let halves = [0xbc16c5b8c40f39f27087475aa6c2e7c0_u128, 0x81432bae2d2eb4fbf7d8ee83ccb23344];
        let data_key = halves.map(u128::to_be_bytes).concat().try_into().unwrap();
        let text = b"The parcel leaves at nine, and the letter at ten.\n";
        assert_eq!(opened(&sample, b"sample"), (text.to_vec(), true));
        assert_eq!(sealed(text, &data_key), sample);
    }

    #[test]
    fn what_is_refused() {
        for length in [0, 1, 15, 16, 17, 50] {
            let text: Vec<u8> = (0..length).collect();
            let whole = sealed(&text, &[5; 32]);
            assert_eq!(opened(&whole, b"sample"), (text.clone(), true));
            assert!(!opened(&whole, b"another label").1);
            let mut wrong: Vec<_> = (0..whole.len()).map(|place| whole[..place].to_vec()).collect();
            wrong.extend((0..whole.len()).map(|at| [&whole[..at], &[whole[at] ^ 1], &whole[at + 1..]].concat()));
            wrong.push([&whole[..], &[0]].concat());
            if length == 50 {
                let part = |i: usize| &whole[HEAD + 32 * i..][..32];
                wrong.push([&whole[..HEAD], part(1), part(0), &whole[HEAD + 64..]].concat()); // exchanged
                wrong.push([&whole[..HEAD], &whole[HEAD + 32..]].concat()); // left out
                wrong.push([&whole[..HEAD], part(0), &whole[HEAD..]].concat()); // doubled
            }
            for sealed in wrong {
                let (beginning, is_whole) = opened(&sealed, b"sample");
                assert!(!is_whole && text.starts_with(&beginning));
            }
        }
    }
}
