"""The same calls of cryptography (PyCA) and of this package have the same results and the same exceptions."""

import random
import unittest

from aeadkit import aead, keywrap
from test_package import left_out

try:
    import cryptography
    from cryptography.exceptions import UnsupportedAlgorithm
    from cryptography.hazmat.primitives import keywrap as pyca_keywrap
    from cryptography.hazmat.primitives.ciphers import aead as pyca_aead
except ImportError:
    raise left_out("the comparison with cryptography, which is not installed") from None

LENGTHS = (0, 1, 15, 16, 17, 31, 32, 33, 63, 64, 65, 129, 1000)


def outcome(call, *words):
    """What a call returns, or the name of its exception."""
    try:
        return call(*words)
    except Exception as error:
        return type(error).__name__


class Comparison(unittest.TestCase):
    def setUp(self):
        self.random = random.Random(1)

    def same(self, ours, theirs, *words):
        self.assertEqual(outcome(ours, *words), outcome(theirs, *words), words)

    def compare(self, name, key_lengths):
        version = cryptography.__version__
        if not hasattr(pyca_aead, name):
            raise left_out(f"{name}, which cryptography {version} does not have")
        kind, pyca_kind = getattr(aead, name), getattr(pyca_aead, name)
        for length in key_lengths:
            key = self.random.randbytes(length)
            try:
                ours, theirs = kind(key), pyca_kind(key)
            except UnsupportedAlgorithm as error:
                raise left_out(f"{name} of cryptography {version}: {error}") from None
            for size in LENGTHS:
                data, nonce = self.random.randbytes(size), self.random.randbytes(12)
                for label in (None, b"", self.random.randbytes(size)):
                    sealed = ours.encrypt(nonce=nonce, data=data, associated_data=label)
                    self.assertEqual(sealed, theirs.encrypt(nonce, data, label))
                    self.assertEqual(ours.decrypt(nonce=nonce, data=sealed, associated_data=label), data)
            nonce, sealed = bytes(12), ours.encrypt(bytes(12), b"data", b"label")
            for words in ((nonce, sealed[:-1], b"label"), (nonce, sealed, None), (nonce, sealed, b"other"), (nonce, b"", None),
                          (nonce[1:] + b"x", sealed, b"label"), (nonce, sealed[:15], b"label"), (nonce, bytes(16), None),
                          (bytes(7), sealed, b"label"), (b"", sealed, b"label"), ("nonce", sealed, b"label"),
                          (None, sealed, b"label"), (nonce, "data", b"label"), (nonce, None, b"label"),
                          (nonce, sealed, "label")):
                self.same(ours.decrypt, theirs.decrypt, *words)
                self.same(ours.encrypt, theirs.encrypt, *words)
        for key in (b"", bytes(15), bytes(31), bytes(33), bytes(64), "x" * 32, None):
            self.same(kind, pyca_kind, key)

    def test_aes_gcm(self):
        self.compare("AESGCM", (16, 24, 32))

    def test_aes_gcm_siv(self):
        self.compare("AESGCMSIV", (16, 32))

    def test_chacha20_poly1305(self):
        self.compare("ChaCha20Poly1305", (32,))

    def test_key_wrap(self):
        for padding, sizes in (("", (16, 24, 32, 64, 72)), ("_with_padding", range(1, 41))):
            wrap, unwrap = getattr(keywrap, f"aes_key_wrap{padding}"), getattr(keywrap, f"aes_key_unwrap{padding}")
            pyca_wrap, pyca_unwrap = (getattr(pyca_keywrap, call.__name__) for call in (wrap, unwrap))
            for length in (16, 24, 32):
                key = self.random.randbytes(length)
                for size in sizes:
                    data = self.random.randbytes(size)
                    self.same(wrap, pyca_wrap, key, data)
                    self.assertEqual(unwrap(key, wrap(key, data)), data)
            for size in (0, 1, 8, 15, 16, 17, 23, 24, 25, 32):
                if not (padding and size > 16 and size % 8):  # PyCA raises the ValueError of its cipher there
                    self.same(unwrap, pyca_unwrap, bytes(16), bytes(size))
            for key in (b"", bytes(15), bytes(33)):
                self.same(wrap, pyca_wrap, key, bytes(24))
                self.same(unwrap, pyca_unwrap, key, bytes(24))
