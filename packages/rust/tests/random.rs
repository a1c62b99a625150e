//! Random messages by every call. Their sealings have one digest, whatever the processor and however they are built.

mod forms;

use aeadkit::{Aad, Key, Suite, WrappingKey, unwrap_padded_to_vec, wrap_padded_to_vec};

/// Bytes from a linear generator.
struct Random(u64);

impl Random {
    fn byte(&mut self) -> u8 {
        self.0 = self.0.wrapping_mul(6364136223846793005).wrapping_add(1442695040888963407);
        (self.0 >> 33) as u8
    }

    fn bytes(&mut self, length: usize) -> Vec<u8> {
        (0..length).map(|_| self.byte()).collect()
    }
}

#[test]
fn sealings_are_the_same_everywhere() {
    let (mut random, mut digest) = (Random(1), 0xcbf2_9ce4_8422_2325_u64);
    let mut take_in = |bytes: &[u8]| {
        for byte in bytes {
            digest = (digest ^ u64::from(*byte)).wrapping_mul(0x100_0000_01b3); // FNV-1a
        }
    };
    for suite in Suite::ALL {
        for length in (0..1400).step_by(97).chain([2048, 5000]) {
            let key = Key::new(suite, &random.bytes(suite.key_bytes())).unwrap();
            let nonce = random.bytes(12).try_into().unwrap();
            let (text, aad) = (random.bytes(length), random.bytes(length % 37));
            let sealed = key.seal_to_vec(&nonce, &text, Aad(&aad)).unwrap();
            take_in(&sealed);
            forms::agree(&key, &nonce, &text, &sealed, Aad(&aad), usize::from(random.byte()) + 1);
        }
    }
    for length in 1..100 {
        let (key, text) = (random.bytes(16 + length % 3 * 8), random.bytes(length));
        let wrapped = wrap_padded_to_vec(WrappingKey(&key), &text).unwrap();
        take_in(&wrapped);
        assert_eq!(unwrap_padded_to_vec(WrappingKey(&key), &wrapped).as_ref(), Ok(&text));
    }
    assert_eq!(format!("{digest:016x}"), "4a3aa2fa4dfb4a1e");
}
