"""The arguments of each call, the exceptions that it can raise, and what is left after them."""

import array
import mmap
import unittest

import aeadkit
from aeadkit import (InvalidTag, InvalidUnwrap, Key, Opener, Overlap, Refused, Sealer, SivSealer, SourceChanged, StateError,
                     Suite, aead, keywrap)

KEY = bytes(range(32))
NONCE = bytes(range(12))
TEXT = b"a text of more than one block of 16 bytes"
GCM, SIV = Suite.AES_256_GCM, Suite.AES_256_GCM_SIV
SEALED = Key(GCM, KEY).seal(NONCE, TEXT, aad=b"aad")
CIPHERTEXT, TAG = SEALED[:-16], SEALED[-16:]


class Arguments(unittest.TestCase):
    def test_aad(self):
        key, peer = Key(GCM, KEY), aead.AESGCM(KEY)
        self.assertEqual(key.seal(NONCE, TEXT), key.seal(NONCE, TEXT, aad=b""))
        self.assertEqual(peer.encrypt(NONCE, TEXT), peer.encrypt(NONCE, TEXT, b""))
        self.assertEqual(key.open(NONCE, peer.encrypt(NONCE, TEXT, None), aad=None), TEXT)
        self.assertRaises(TypeError, key.seal, NONCE, TEXT, b"aad")  # by name alone, so that it cannot be exchanged

    def test_objects_that_give_bytes(self):
        key, data, mapped = Key(GCM, bytearray(KEY)), bytes(range(48)), mmap.mmap(-1, 48)
        mapped[:] = data
        for text in (bytearray(data), memoryview(data[::-1])[::-1], mapped,
                     array.array("B", data), memoryview(data).cast("B", (2, 24)), memoryview(data).cast("c")):
            sealed = key.seal(memoryview(NONCE), text, aad=text)
            self.assertEqual(sealed, Key(GCM, KEY).seal(NONCE, data, aad=data))
            self.assertEqual(key.open(bytearray(NONCE), bytearray(sealed), aad=text), data)
            sealer, opener = key.sealer(NONCE, aad=text), key.opener(NONCE, memoryview(sealed)[-16:], aad=text)
            self.assertEqual(sealer.update(text) + sealer.finish(), sealed)
            opener.check(memoryview(sealed)[:-16])
            opener.begin_second()

    def test_anything_else_is_a_type_error(self):
        key = Key(GCM, KEY)
        for other in ("text", 16, None, [1, 2], key, array.array("i", [1, 2]), array.array("d", [1.0])):
            for call in (lambda: key.seal(NONCE, other), lambda: key.seal(other, TEXT), lambda: key.open(NONCE, other),
                         lambda: Key(GCM, other), lambda: key.seal_in_place(NONCE, other), lambda: key.sealer(other),
                         lambda: key.open_in_place(NONCE, memoryview(bytearray(16)), other), lambda: key.opener(NONCE, other),
                         lambda: key.sealer(NONCE).update(other), lambda: key.sealer(NONCE).update_in_place(other),
                         lambda: key.opener(NONCE, TAG).check(other), lambda: aead.AESGCM(other),
                         lambda: keywrap.aes_key_wrap(other, KEY), lambda: keywrap.aes_key_unwrap(KEY, other)):
                self.assertRaises(TypeError, call)
            if other is not None:
                self.assertRaises(TypeError, key.seal, NONCE, TEXT, aad=other)

    def test_a_key_in_the_place_of_the_suite_is_not_shown(self):
        for call in (Key, lambda *words: Sealer(*words, NONCE), lambda *words: Opener(*words, NONCE, TAG)):
            with self.assertRaises(TypeError) as caught:
                call(KEY, GCM)
            self.assertNotIn(repr(KEY), str(caught.exception))
        self.assertNotIn("kkk", repr(Key(GCM, b"k" * 32)))

    def test_results_are_new_bytes(self):
        """Python has one object for the empty bytes and for each single byte, to which nothing may be written."""
        key = Key(GCM, KEY)
        for text in (b"", *(bytes([byte]) for byte in range(256))):
            for piece in (text, bytearray(text)):
                sealer = key.sealer(NONCE)
                sealed = sealer.update(piece) + sealer.finish()
                opened = key.open(NONCE, sealed)
                self.assertEqual((sealed, opened, hash(opened)), (key.seal(NONCE, piece), piece, hash(bytes(piece))))
        self.assertEqual([bytes([byte])[0] for byte in range(256)], list(range(256)))


class Faults(unittest.TestCase):
    def refused(self, message, *calls):
        for call in calls:
            self.assertRaisesRegex(ValueError, message, call)

    def test_wrong_lengths_and_suites(self):
        key, siv, buffer, peer = Key(GCM, KEY), Key(SIV, KEY), memoryview(bytearray(TEXT)), aead.AESGCM(KEY)
        self.assertRaises(ValueError, aeadkit._lib.key_init, -1, KEY)
        for nonce in (b"", bytes(11), bytes(13), bytes(16)):
            self.refused("nonce is not 12 bytes", lambda: key.seal(nonce, TEXT), lambda: key.open(nonce, SEALED),
                         lambda: key.seal_in_place(nonce, buffer), lambda: key.open_in_place(nonce, buffer, TAG),
                         lambda: key.sealer(nonce), lambda: key.opener(nonce, TAG), lambda: siv.siv_sealer(nonce),
                         lambda: Sealer(GCM, KEY, nonce), lambda: Opener(GCM, KEY, nonce, TAG),
                         lambda: SivSealer(SIV, KEY, nonce), lambda: peer.encrypt(nonce, TEXT, None),
                         lambda: peer.decrypt(nonce, SEALED, None))
        for suite in Suite:
            for length in set(range(65)) - {suite.key_bytes}:
                self.refused("key is not as long", lambda: Key(suite, bytes(length)))
        self.refused("key is not as long", lambda: Sealer(GCM, TAG, NONCE), lambda: Opener(GCM, b"", NONCE, TAG),
                     lambda: SivSealer(SIV, TAG, NONCE))
        for tag in (b"", TAG[1:], SEALED):
            self.refused("tag is not 16 bytes", lambda: key.open_in_place(NONCE, buffer, tag),
                         lambda: key.opener(NONCE, tag), lambda: Opener(GCM, KEY, NONCE, tag))
        for suite in (0, 7, -1, 2**32 + 1, 2**70):
            self.refused("is not a valid Suite", lambda: Key(suite, KEY), lambda: Sealer(suite, KEY, NONCE),
                         lambda: Opener(suite, KEY, NONCE, TAG), lambda: SivSealer(suite, KEY, NONCE))
        self.refused("siv_sealer and SivSealer are for AES-GCM-SIV", lambda: key.siv_sealer(NONCE), lambda: siv.sealer(NONCE),
                     lambda: Sealer(SIV, KEY, NONCE), lambda: SivSealer(GCM, KEY, NONCE))
        self.refused("one of chacha20-poly1305, aes-128-gcm,", *[lambda: Suite.named(name) for name in ("", "AES-128-GCM", 4)])
        self.assertEqual([Suite.named(suite.name.lower().replace("_", "-")) for suite in Suite], list(Suite))
        for name, length in (("AESGCM", 20), ("AESGCMSIV", 24), ("ChaCha20Poly1305", 16)):
            self.refused(name, lambda: getattr(aead, name)(bytes(length)))
        self.assertEqual(buffer, TEXT)

    def test_limits(self):
        """No test has so long a text, but the statuses are known."""
        self.assertEqual([(suite.key_bytes, suite.text_limit, suite.aad_limit) for suite in Suite],
                         [(32, 2**38 - 64, 2**64 - 1), (16, 2**36 - 32, 2**61 - 1), (24, 2**36 - 32, 2**61 - 1),
                          (32, 2**36 - 32, 2**61 - 1), (16, 2**36, 2**36), (32, 2**36, 2**36)])
        self.refused("the text is longer", lambda: aeadkit._done((3, b"")))
        self.refused("the associated data is longer", lambda: aeadkit._done((4, b"")))

    def test_not_a_sealing(self):
        key = Key(GCM, KEY)
        for sealed in (b"", TAG[1:], TAG, SEALED[:-1], SEALED + b"x", CIPHERTEXT):
            self.assertRaises(InvalidTag, key.open, NONCE, sealed, aad=b"aad")
            self.assertRaises(InvalidTag, aead.AESGCM(KEY).decrypt, NONCE, sealed, b"aad")
        for fault in (InvalidTag, InvalidUnwrap, Overlap, SourceChanged, StateError):
            self.assertEqual(fault.__bases__, (Refused,))

    def test_in_place(self):
        """What is given is changed, and nothing else. What cannot be changed is a TypeError."""
        for suite in Suite:
            key, buffer = Key(suite, KEY[: suite.key_bytes]), bytearray(b"head" + TEXT)
            with memoryview(buffer) as view:
                tag = key.seal_in_place(NONCE, view[4:], aad=b"aad")
                self.assertEqual(buffer + tag, b"head" + key.seal(NONCE, TEXT, aad=b"aad"))
                ciphertext = bytes(buffer)
                self.assertRaises(InvalidTag, key.open_in_place, NONCE, view[4:], tag)
                self.assertEqual(buffer, ciphertext)
                key.open_in_place(NONCE, view[4:], tag, aad=b"aad")
                self.assertEqual(buffer, b"head" + TEXT)
                self.assertRaises(TypeError, key.seal_in_place, NONCE, view[::2])
                tag = key.seal_in_place(NONCE, view[4:], aad=view[:4])
                self.assertEqual(buffer + tag, b"head" + key.seal(NONCE, TEXT, aad=b"head"))
                key.open_in_place(NONCE, view[4:], tag, aad=view[:4])
                key.open_in_place(NONCE, view[:-4], key.seal_in_place(NONCE, view[:-4], aad=view[-4:]), aad=view[-4:])
                for words in ((view[:12], view[4:]), (view[-12:], view)):
                    self.assertRaises(Overlap, key.seal_in_place, *words)
                    self.assertRaises(Overlap, key.open_in_place, *words, TAG)
                for aad in (view, view[:5], view[-1:]):
                    self.assertRaises(Overlap, key.seal_in_place, NONCE, view[4:], aad=aad)
                    self.assertRaises(Overlap, key.open_in_place, NONCE, view[4:], TAG, aad=aad)
                self.assertRaises(Overlap, key.open_in_place, NONCE, view[4:], view[-16:])
                self.assertEqual(buffer, b"head" + TEXT)
                # An empty text overlaps nothing, also where it stands among other bytes.
                self.assertEqual(key.seal_in_place(NONCE, view[2:2], aad=view), key.seal(NONCE, b"", aad=buffer))
            for whole in (bytearray(TEXT), array.array("B", TEXT)):
                tag = key.seal_in_place(NONCE, whole)
                self.assertEqual(bytes(whole) + tag, key.seal(NONCE, TEXT))
                key.open_in_place(NONCE, whole, tag)
                self.assertEqual(bytes(whole), TEXT)
            for text in (TEXT, memoryview(TEXT), array.array("i", [1]), memoryview(array.array("i", [1]))):
                self.assertRaises(TypeError, key.seal_in_place, NONCE, text)
                self.assertRaises(TypeError, key.open_in_place, NONCE, text, tag, aad=b"aad")
            self.assertEqual(key.seal_in_place(NONCE, memoryview(bytearray())), key.seal(NONCE, b""))
            del words, aad
            buffer.append(0)  # no call holds the buffer any more

    def test_a_refused_opening_leaves_zeros(self):
        """The output is dropped, so the test takes it where it is made."""
        for suite in Suite:
            key = Key(suite, KEY[: suite.key_bytes])
            sealed = key.seal(NONCE, TEXT)
            self.assertEqual(aeadkit._lib.open(key._struct.memory, NONCE, sealed, b"other"), (6, bytes(len(TEXT))))

    def test_key_wrap(self):
        for size in (0, 1, 8, 15, 17, 20):
            self.refused("multiple of 8", lambda: keywrap.aes_key_wrap(KEY, bytes(size)))
        self.refused("empty", lambda: keywrap.aes_key_wrap_with_padding(KEY, b""))
        for call in (keywrap.aes_key_wrap, keywrap.aes_key_wrap_with_padding, keywrap.aes_key_unwrap,
                     keywrap.aes_key_unwrap_with_padding):
            for length in (0, 15, 17, 33, 64):
                self.refused("wrapping key", lambda: call(bytes(length), bytes(24)))
        for call in (keywrap.aes_key_unwrap, keywrap.aes_key_unwrap_with_padding):
            for size in range(33):
                self.assertRaises(InvalidUnwrap, call, KEY, bytes(size))
        self.assertRaises(InvalidUnwrap, keywrap.aes_key_unwrap, KEY, keywrap.aes_key_wrap_with_padding(KEY, KEY))


class Order(unittest.TestCase):
    """A call at the wrong time is refused, and a refusal leaves the state and the piece as they were."""

    def refused(self, *calls):
        for call, *words in calls:
            self.assertRaises(StateError, call, *words)

    def test_sealer(self):
        sealer, piece = Sealer(GCM, KEY, NONCE, aad=b"aad"), memoryview(bytearray(TEXT[10:]))
        made = sealer.update(TEXT[:10])
        self.assertRaises(TypeError, sealer.update, "text")
        sealer.update_in_place(piece)
        made += piece
        self.assertEqual(made + sealer.finish(), SEALED)
        self.refused((sealer.update, b""), (sealer.update, TEXT), (sealer.update_in_place, piece), (sealer.finish,))
        self.assertEqual(piece, made[10:])

    def test_opener(self):
        opener, piece = Opener(GCM, KEY, NONCE, TAG, aad=b"aad"), memoryview(bytearray(CIPHERTEXT))
        opener.check(CIPHERTEXT[:7])
        self.refused((opener.update, CIPHERTEXT), (opener.update_in_place, piece), (opener.finish,))
        opener.check(CIPHERTEXT[7:])
        opener.begin_second()
        self.refused((opener.check, b""), (opener.begin_second,))
        self.assertRaises(SourceChanged, opener.update, CIPHERTEXT + b"x")
        text = opener.update(CIPHERTEXT[:3])
        self.assertRaises(SourceChanged, opener.update_in_place, piece)
        self.assertEqual(piece, CIPHERTEXT)
        opener.update_in_place(piece[3:])
        self.assertEqual(text + bytes(piece[3:]), TEXT)
        opener.finish()
        self.refused((opener.check, b""), (opener.begin_second,), (opener.update, b""), (opener.finish,))

    def test_siv_sealer(self):
        siv, piece = SivSealer(SIV, KEY, NONCE, aad=b"aad"), memoryview(bytearray(TEXT))
        siv.absorb(TEXT[:7])
        self.refused((siv.update, TEXT), (siv.update_in_place, piece), (siv.finish,))
        siv.absorb(TEXT[7:])
        tag = siv.begin_second()
        self.refused((siv.absorb, b""), (siv.begin_second,))
        self.assertRaises(SourceChanged, siv.update, TEXT + b"x")
        siv.update_in_place(piece)
        siv.finish()
        self.assertEqual(bytes(piece) + tag, Key(SIV, KEY).seal(NONCE, TEXT, aad=b"aad"))
        self.refused((siv.absorb, b""), (siv.begin_second,), (siv.update, b""), (siv.finish,))
        siv = Key(SIV, KEY).siv_sealer(NONCE, aad=b"aad")
        siv.absorb(TEXT)
        self.assertEqual(siv.begin_second(), tag)

    def test_a_refusal_ends_the_state(self):
        for suite in Suite:
            key = Key(suite, KEY[: suite.key_bytes])
            sealed = key.seal(NONCE, TEXT)
            refused = key.opener(NONCE, sealed[-16:], aad=b"other")
            refused.check(sealed[:-16])
            self.assertRaises(InvalidTag, refused.begin_second)
            self.refused((refused.check, b""), (refused.begin_second,), (refused.update, b""), (refused.finish,))
            for second in (bytes(len(TEXT)), sealed[:-17], b""):
                opener = key.opener(NONCE, sealed[-16:])
                opener.check(sealed[:-16])
                opener.begin_second()
                opener.update(second)
                self.assertRaises(SourceChanged, opener.finish)
                self.refused((opener.finish,))
        for second in (bytes(len(TEXT)), TEXT[1:]):
            siv = Key(SIV, KEY).siv_sealer(NONCE)
            siv.absorb(TEXT)
            siv.begin_second()
            siv.update(second)
            self.assertRaises(SourceChanged, siv.finish)
            self.refused((siv.finish,))
