"""The functions of cryptography.hazmat.primitives.keywrap (PyCA): a key is stored or sent under another key.

A wrapping key is an AES key of 16, 24 or 32 bytes, and serves for nothing else. There is no nonce: equal keys have equal
wrappings. InvalidUnwrap is a class of this package, so import it from here too.
"""

from __future__ import annotations

from typing import TYPE_CHECKING, Any, Callable

from . import InvalidUnwrap, _lib

if TYPE_CHECKING:
    from _typeshed import ReadableBuffer as Buffer

__all__ = ["InvalidUnwrap", "aes_key_unwrap", "aes_key_unwrap_with_padding", "aes_key_wrap", "aes_key_wrap_with_padding"]


def _run(call: Callable[..., Any], wrapping_key: Buffer, data: Buffer, fault: type[Exception], message: str) -> bytes:
    """The output of a call, or the fault."""
    result = call(wrapping_key, data)
    if type(result) is bytes:
        return result
    if result[0] == 1:
        raise ValueError("the wrapping key is not 16, 24 or 32 bytes long")
    raise fault(message)


def aes_key_wrap(wrapping_key: Buffer, key_to_wrap: Buffer) -> bytes:
    """Wraps a key whose length is a multiple of 8 and at least 16 (RFC 3394), or raises ValueError."""
    return _run(_lib.wrap, wrapping_key, key_to_wrap, ValueError,
                "the length of the key to wrap is not a multiple of 8, or less than 16")


def aes_key_unwrap(wrapping_key: Buffer, wrapped_key: Buffer) -> bytes:
    """Returns the key that aes_key_wrap wrapped, or raises InvalidUnwrap."""
    return _run(_lib.unwrap, wrapping_key, wrapped_key, InvalidUnwrap, "not a valid wrapping")


def aes_key_wrap_with_padding(wrapping_key: Buffer, key_to_wrap: Buffer) -> bytes:
    """Wraps a key of 1 to 2**32 - 1 bytes (RFC 5649), or raises ValueError."""
    return _run(_lib.wrap_padded, wrapping_key, key_to_wrap, ValueError,
                "the key to wrap is empty, or longer than 2**32 - 1 bytes")


def aes_key_unwrap_with_padding(wrapping_key: Buffer, wrapped_key: Buffer) -> bytes:
    """Returns the key that aes_key_wrap_with_padding wrapped, or raises InvalidUnwrap."""
    return _run(_lib.unwrap_padded, wrapping_key, wrapped_key, InvalidUnwrap, "not a valid wrapping")
