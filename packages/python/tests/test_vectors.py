"""The vectors of docs/published.vectors and docs/edges.vectors, by each call that seals, opens, wraps or unwraps."""

import pathlib
import unittest

from aeadkit import InvalidTag, InvalidUnwrap, Key, Opener, Sealer, SivSealer, Suite, aead, keywrap

FILES = [pathlib.Path(__file__).resolve().parents[3] / "docs" / name for name in ("published.vectors", "edges.vectors")]
CLASSES = {Suite.CHACHA20_POLY1305: aead.ChaCha20Poly1305, Suite.AES_128_GCM: aead.AESGCM, Suite.AES_192_GCM: aead.AESGCM,
           Suite.AES_256_GCM: aead.AESGCM, Suite.AES_128_GCM_SIV: aead.AESGCMSIV, Suite.AES_256_GCM_SIV: aead.AESGCMSIV}
CUTS = [0, 1, 15, 16, 17]


def lines():
    """Each line of the files, with its place."""
    for file in FILES:
        for number, line in enumerate(file.read_bytes().decode("latin-1").split("\n"), 1):
            yield f"{file.name}:{number}", line


def records():
    """Each record (docs/VECTOR-FILES.md) as a dict, with the place of its first line. The text is None if the bytes must be refused."""
    record = {}
    for place, line in lines():
        name, _, value = (part.strip(" ") for part in line.rstrip("\r ").partition("="))
        if not name or name.startswith("#") or name == "format":
            continue
        if name == "suite":
            record = {"place": place, "suite": value, "cuts": []}
        elif name == "cuts":
            record["cuts"] = [int(cut) for cut in value.split(",")]
        elif name == "invalid":
            record["text"] = None
        else:
            record[name] = bytes.fromhex(value)
        if "text" in record:
            yield record


def pieces(data, cut):
    """The data as three pieces: one up to the cut, one of the same length, and the rest."""
    return [data[:cut], data[cut : 2 * cut], data[2 * cut :]]


def seal_in_pieces(sealer, text, first, second):
    """The sealing of a text that is cut differently in the first pass, if there are two, and in the second."""
    if isinstance(sealer, Sealer):
        return b"".join(map(sealer.update, pieces(text, second))) + sealer.finish()
    for piece in pieces(text, first):
        sealer.absorb(piece)
    tag = sealer.begin_second()
    ciphertext = b"".join(map(sealer.update, pieces(text, second)))
    sealer.finish()
    return ciphertext + tag


def open_in_pieces(opener, ciphertext, first, second):
    for piece in pieces(ciphertext, first):
        opener.check(piece)
    opener.begin_second()
    text = b"".join(map(opener.update, pieces(ciphertext, second)))
    opener.finish()
    return text


class Vectors(unittest.TestCase):
    def test_sealings(self):
        suites = set()
        for record in records():
            if "nonce" not in record:
                continue
            with self.subTest(place=record["place"]):
                suite = Suite[record["suite"].upper().replace("-", "_")]
                parts = [record[name] for name in ("key", "nonce", "aad", "sealed")]
                suites.add(suite)
                if record["text"] is None:
                    self.refused(suite, *parts)
                    continue
                self.agrees(suite, *parts, record["text"])
                self.agrees_in_pieces(suite, *parts, record["text"], CUTS + record["cuts"])
                for changed in range(4):
                    if parts[changed]:
                        bits = parts[changed][:-1] + bytes([parts[changed][-1] ^ 1])
                        self.refused(suite, *parts[:changed], bits, *parts[changed + 1 :])
        self.assertEqual(suites, set(Suite))

    def agrees(self, suite, raw_key, nonce, aad, sealed, text):
        key, peer, buffer = Key(suite, raw_key), CLASSES[suite](raw_key), memoryview(bytearray(text))
        self.assertEqual(key.seal(nonce, text, aad=aad), sealed)
        self.assertEqual(key.open(nonce, sealed, aad=aad), text)
        self.assertEqual(peer.encrypt(nonce, text, aad), sealed)
        self.assertEqual(peer.decrypt(nonce, sealed, aad), text)
        self.assertEqual(key.seal_in_place(nonce, buffer, aad=aad), sealed[-16:])
        self.assertEqual(buffer, sealed[:-16])
        key.open_in_place(nonce, buffer, sealed[-16:], aad=aad)
        self.assertEqual(buffer, text)

    def agrees_in_pieces(self, suite, raw_key, nonce, aad, sealed, text, cuts):
        key, ciphertext, tag = Key(suite, raw_key), sealed[:-16], sealed[-16:]
        kind, begin = (SivSealer, key.siv_sealer) if CLASSES[suite] is aead.AESGCMSIV else (Sealer, key.sealer)
        for first, second in zip(cuts, cuts[::-1]):
            for sealer in (kind(suite, raw_key, nonce, aad=aad), begin(nonce, aad=aad)):
                self.assertEqual(seal_in_pieces(sealer, text, first, second), sealed)
            for opener in (Opener(suite, raw_key, nonce, tag, aad=aad), key.opener(nonce, tag, aad=aad)):
                self.assertEqual(open_in_pieces(opener, ciphertext, first, second), text)

    def refused(self, suite, raw_key, nonce, aad, sealed):
        key, ciphertext, tag = Key(suite, raw_key), sealed[:-16], sealed[-16:]
        self.assertRaises(InvalidTag, key.open, nonce, sealed, aad=aad)
        self.assertRaises(InvalidTag, CLASSES[suite](raw_key).decrypt, nonce, sealed, aad)
        if len(tag) == 16:
            buffer = memoryview(bytearray(ciphertext))
            self.assertRaises(InvalidTag, key.open_in_place, nonce, buffer, tag, aad=aad)
            self.assertEqual(buffer, ciphertext)
            self.assertRaises(InvalidTag, open_in_pieces, key.opener(nonce, tag, aad=aad), ciphertext, 16, 16)

    def test_wrappings(self):
        paddings = set()
        for record in records():
            if "nonce" in record:
                continue
            with self.subTest(place=record["place"]):
                padding = "_with_padding" if record["suite"].endswith("-pad") else ""
                paddings.add(padding)
                wrap, unwrap = getattr(keywrap, f"aes_key_wrap{padding}"), getattr(keywrap, f"aes_key_unwrap{padding}")
                key, wrapped, text = record["key"], record["sealed"], record["text"]
                if text is None:
                    self.assertRaises(InvalidUnwrap, unwrap, key, wrapped)
                    continue
                self.assertEqual(wrap(wrapping_key=key, key_to_wrap=text), wrapped)
                self.assertEqual(unwrap(wrapping_key=key, wrapped_key=wrapped), text)
                for changed in (bytes([wrapped[0] ^ 1]) + wrapped[1:], wrapped[:-1], wrapped + bytes(8), b""):
                    self.assertRaises(InvalidUnwrap, unwrap, key, changed)
        self.assertEqual(paddings, {"", "_with_padding"})
