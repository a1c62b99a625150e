"""The classes of cryptography.hazmat.primitives.ciphers.aead (PyCA) for the suites of aeadkit.

    from aeadkit.aead import AESGCM, AESGCMSIV, ChaCha20Poly1305, InvalidTag

The bytes are the same. InvalidTag is a class of this package, so import it from here too. A nonce is 12 bytes long, and any
other length is a ValueError. There is no generate_key: a key is os.urandom(32).
"""

from __future__ import annotations

from typing import TYPE_CHECKING, Optional

from . import InvalidTag, Key, Suite

if TYPE_CHECKING:
    from _typeshed import ReadableBuffer as Buffer

__all__ = ["AESGCM", "AESGCMSIV", "ChaCha20Poly1305", "InvalidTag"]


class _Aead:
    _suites: dict[int, Suite]

    def __init__(self, key: Buffer) -> None:
        with memoryview(key) as view:
            if view.itemsize != 1:
                raise TypeError(f"bytes are required, not the items of {type(key).__name__!r}")
            if view.nbytes not in self._suites:
                raise ValueError(f"{type(self).__name__} key must be {' or '.join(map(str, self._suites))} bytes long")
            self._key = Key(self._suites[view.nbytes], key)

    def encrypt(self, nonce: Buffer, data: Buffer, associated_data: Optional[Buffer] = None) -> bytes:
        """Returns the ciphertext of the data, followed by the tag of 16 bytes."""
        return self._key.seal(nonce, data, aad=associated_data)

    def decrypt(self, nonce: Buffer, data: Buffer, associated_data: Optional[Buffer] = None) -> bytes:
        """Returns the text of what encrypt returned, or raises InvalidTag."""
        return self._key.open(nonce, data, aad=associated_data)


class AESGCM(_Aead):
    """AES-GCM under a key of 16, 24 or 32 bytes. Never use a nonce twice under one key: others can then forge messages."""

    _suites = {16: Suite.AES_128_GCM, 24: Suite.AES_192_GCM, 32: Suite.AES_256_GCM}


class AESGCMSIV(_Aead):
    """AES-GCM-SIV under a key of 16 or 32 bytes. A nonce that is used twice shows whether the two messages are the same."""

    _suites = {16: Suite.AES_128_GCM_SIV, 32: Suite.AES_256_GCM_SIV}


class ChaCha20Poly1305(_Aead):
    """ChaCha20-Poly1305 under a key of 32 bytes. Never use a nonce twice under one key: others can then forge messages."""

    _suites = {32: Suite.CHACHA20_POLY1305}
