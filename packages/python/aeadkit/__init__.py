"""Authenticated encryption and AES key wrap over libaeadkit, whose code is proved.

>>> import os
>>> from aeadkit import Key, Suite
>>> key = Key(Suite.CHACHA20_POLY1305, os.urandom(32))
>>> nonce = (1).to_bytes(12, "big")  # the number of the message under this key
>>> sealed = key.seal(nonce, b"the text", aad=b"a label")
>>> key.open(nonce, sealed, aad=b"a label")
b'the text'

The associated data, `aad`, is authenticated, but neither encrypted nor stored: opening needs the same bytes again. Put there
what the text is and where it belongs. `aeadkit.aead` has the classes AESGCM, AESGCMSIV and ChaCha20Poly1305 of the package
cryptography (PyCA), and `aeadkit.keywrap` its functions for AES key wrap.

Arguments. Keys, nonces, associated data and texts are bytes, or an object that gives bytes, such as a bytearray, a
memoryview, an mmap or a numpy array of uint8. Anything else is a TypeError. They are read where they are, and no other thread
may change them during the call. The calls in place change a bytearray or what a memoryview shows, and no other thread may read
or write it meanwhile. A slice of a bytearray is a copy: for a part write memoryview(data)[1:5].

Exceptions. Failed authentication is InvalidTag, and so is a sealing that is shorter than a tag. A call in the wrong order,
after close or in a forked process is a StateError. All exceptions of this package are Refused. A wrong length and an unknown
suite are ValueErrors. After any other exception in the middle of a message, such as KeyboardInterrupt, begin the message
again under another nonce.

Threads and processes. Other threads run during a call over 2 KiB or more. A Key may be shared by threads, and a forked process
may use it, but a fork copies a counter of nonces too: give each process its own key, or its own part of the nonce. A Sealer, an
Opener and a SivSealer run one call at a time, in the order in which the threads make them. They cannot be copied, pickled or
used in a forked process, since two copies would seal two texts under one nonce.

Memory. The structs that hold keys are wiped by close, at the end of a with statement, and when the object is deleted.
Python's own bytes are not wiped. No suite looks up memory by a secret byte or branches on one. This was looked for in the
machine code, in the builds and with the lengths that docs/SECURITY.md names, and is not proved.
"""

from __future__ import annotations

import enum
import os
import threading
from importlib import import_module
from typing import TYPE_CHECKING, Any, Callable, NoReturn, Optional, TypeVar

if TYPE_CHECKING:
    from _typeshed import ReadableBuffer as Buffer

__all__ = ["Suite", "Key", "Sealer", "Opener", "SivSealer", "Refused", "InvalidTag", "InvalidUnwrap", "Overlap",
           "SourceChanged", "StateError"]

_lib: Any = import_module("._library", __name__)
if _lib.RUNS_V3:
    _lib = import_module("._library_v3", __name__)
__version__: str = _lib.VERSION


class Refused(Exception):
    """The base of the exceptions of this package."""


class InvalidTag(Refused):
    """Authentication failed: the bytes were not sealed under this suite, key, nonce and associated data.

    The library does not know which of them differs. A program should not tell its peer more than that authentication failed.
    """


class InvalidUnwrap(Refused):
    """Authentication failed: not a valid wrapping under this key."""


class SourceChanged(Refused):
    """The second pass over a message was given other bytes than the first. What update returned is to be thrown away."""


class Overlap(Refused):
    """The text of a call in place shares memory with another argument of the call. Nothing was changed."""


class StateError(Refused):
    """A call out of order: in another pass, after finish or close, or in a forked process. Nothing was changed by it."""


_FAULTS: dict[int, tuple[type[Exception], str]] = {
    1: (ValueError, "the key is not as long as the suite requires"),
    2: (ValueError, "the nonce is not 12 bytes long"),
    3: (ValueError, "the text is longer than the suite allows"),
    4: (ValueError, "the associated data is longer than the suite allows"),
    5: (InvalidTag, "authentication failed"),
    6: (InvalidTag, "authentication failed"),
    13: (SourceChanged, "the second pass was given other bytes than the first"),
    14: (ValueError, "the call does not take this suite: siv_sealer and SivSealer are for AES-GCM-SIV, sealer and Sealer for "
                     "the other suites"),
    15: (StateError, "the call is out of order: not begun, in another pass, or finished"),
    17: (Overlap, "the text of the call in place shares memory with another argument"),
}


def _done(result: Any) -> bytes:
    """The output of a call, or the exception for its status if it returned a tuple of the status and the output."""
    if type(result) is tuple:
        fault, message = _FAULTS.get(result[0], (RuntimeError, f"the library returned the status {result[0]}"))
        raise fault(message)
    output: bytes = result
    return output


class Suite(enum.IntEnum):
    """The algorithms. Every nonce is 12 bytes long, and every tag 16."""

    CHACHA20_POLY1305 = 1
    AES_128_GCM = 2
    AES_192_GCM = 3
    AES_256_GCM = 4
    AES_128_GCM_SIV = 5
    AES_256_GCM_SIV = 6

    @classmethod
    def named(cls, name: str) -> Suite:
        """The suite that the command and the vector files call by this name, such as "chacha20-poly1305", or ValueError."""
        names = {suite.name.lower().replace("_", "-"): suite for suite in cls}
        if name not in names:
            raise ValueError(f"the name of the suite is not one of {', '.join(names)}")
        return names[name]

    @property
    def key_bytes(self) -> int:
        """The length of a key in bytes."""
        return int(_lib.facts(self)[0])

    @property
    def text_limit(self) -> int:
        """The length of the longest text in bytes."""
        return int(_lib.facts(self)[1])

    @property
    def aad_limit(self) -> int:
        """The length of the longest associated data in bytes."""
        return int(_lib.facts(self)[2])


def _suite(suite: int) -> Suite:
    if not isinstance(suite, int):  # a key in the place of the suite must not be shown
        raise TypeError(f"a Suite is required, not {type(suite).__name__!r}")
    return Suite(suite)


class _Struct:
    """A struct of the library. It is wiped when neither an object nor a call uses it any more."""

    def __init__(self, suite: Suite, memory: Any) -> None:
        self.suite, self.memory, self.process = suite, memory, os.getpid()
        self.lock = threading.RLock()  # not Lock: a signal handler may call while its thread holds it

    def __del__(self, wipe: Callable[[Any], Any] = _lib.wipe) -> None:
        wipe(self.memory)


_Self = TypeVar("_Self", bound="_HasStruct")


class _HasStruct:
    """The base of Key, Sealer, Opener and SivSealer."""

    _struct: Optional[_Struct] = None

    def _get(self) -> _Struct:
        struct = self._struct  # another thread may close the object meanwhile
        if struct is None:
            raise StateError(f"this {type(self).__name__} is closed")
        return struct

    @property
    def suite(self) -> Suite:
        """The suite of the key. StateError after close."""
        return self._get().suite

    def close(self) -> None:
        """Wipes the struct that holds the key, after the last call in another thread that uses it. Later calls raise
        StateError."""
        self._struct = None

    def __enter__(self: _Self) -> _Self:
        return self

    def __exit__(self, *exception: object) -> None:
        self.close()

    def __repr__(self) -> str:
        struct = self._struct
        return f"<aeadkit.{type(self).__name__}: {struct.suite.name if struct else 'closed'}>"

    def __reduce__(self) -> NoReturn:
        raise TypeError(f"a {type(self).__name__} cannot be copied or pickled: it holds a key")


class Key(_HasStruct):
    """A suite with a key, whose schedule is computed once. Threads may share it, and its copy is the object itself.

    Never seal twice with one nonce under one key. Nothing here notices a repeat. Under ChaCha20-Poly1305 and AES-GCM it
    gives away the XOR of the two texts and enough to forge messages; under AES-GCM-SIV only whether the messages are the
    same. Take ChaCha20-Poly1305 with a counter as nonce, which is stored before it is used; AES-256-GCM-SIV where a nonce
    may come twice or nonces are drawn at random, at most 2^32 under one key; and AES-GCM where a standard demands it. A
    counter is 12 bytes with the highest first. A sealing in pieces uses its nonce up even if it is never finished.

    ValueError if the key is not `suite.key_bytes` long. The calls raise ValueError if the nonce is not 12 bytes long, or if the
    text or the associated data is longer than `suite.text_limit` or `suite.aad_limit`, and StateError after close.
    """

    def __init__(self, suite: int, key: Buffer) -> None:
        member = _suite(suite)
        self._struct = _Struct(member, _done(_lib.key_init(member, key)))

    def __copy__(self) -> Key:
        return self

    def __deepcopy__(self, memo: object) -> Key:
        return self

    def seal(self, nonce: Buffer, text: Buffer, *, aad: Optional[Buffer] = None) -> bytes:
        """Returns the ciphertext of the text, followed by the tag: 16 bytes more than the text."""
        struct = self._get()
        return _done(_lib.seal(struct.memory, nonce, text, aad))

    def open(self, nonce: Buffer, sealed: Buffer, *, aad: Optional[Buffer] = None) -> bytes:
        """Returns the text of what seal returned, under the same nonce and associated data.

        InvalidTag if the bytes are not such a sealing, or are shorter than a tag. No text is returned then.
        """
        struct = self._get()
        return _done(_lib.open(struct.memory, nonce, sealed, aad))

    def seal_in_place(self, nonce: Buffer, text: Buffer, *, aad: Optional[Buffer] = None) -> bytes:
        """Replaces a text by its ciphertext where it stands, and returns the tag of 16 bytes.

        The ciphertext and then the tag are what seal returns. After an exception the text is as it was. TypeError if `text` is
        read-only or is not contiguous; Overlap if the nonce or the associated data stands in it.
        """
        struct = self._get()
        return _done(_lib.seal_in_place(struct.memory, nonce, text, aad))

    def open_in_place(self, nonce: Buffer, ciphertext: Buffer, tag: Buffer, *, aad: Optional[Buffer] = None) -> None:
        """Replaces a ciphertext by its text where it stands. The tag of 16 bytes is not part of the ciphertext.

        InvalidTag if they are not a sealing under this key, nonce and associated data. After this and any other exception
        the ciphertext is as it was. ValueError if the tag is not 16 bytes long; TypeError and Overlap as in seal_in_place.
        """
        struct = self._get()
        _done(_lib.open_in_place(struct.memory, nonce, ciphertext, tag, aad))

    def sealer(self, nonce: Buffer, *, aad: Optional[Buffer] = None) -> Sealer:
        """Begins a sealing in pieces under ChaCha20-Poly1305 or AES-GCM. The Key may be closed before the sealing ends.

        ValueError under AES-GCM-SIV, which reads the text twice: see siv_sealer.
        """
        return self._begin(Sealer.__new__(Sealer), _lib.sealer_init, nonce, aad)

    def opener(self, nonce: Buffer, tag: Buffer, *, aad: Optional[Buffer] = None) -> Opener:
        """Begins an opening in pieces under any suite. `tag` is the last 16 bytes of the sealing. The Key may be closed before
        the opening ends."""
        return self._begin(Opener.__new__(Opener), _lib.opener_init, nonce, tag, aad)

    def siv_sealer(self, nonce: Buffer, *, aad: Optional[Buffer] = None) -> SivSealer:
        """Begins a sealing in pieces under AES-GCM-SIV. ValueError under another suite. The Key may be closed before the
        sealing ends."""
        return self._begin(SivSealer.__new__(SivSealer), _lib.siv_init, nonce, aad)

    def _begin(self, state: _State, call: Callable[..., Any], *words: Optional[Buffer]) -> _State:
        struct = self._get()
        state._struct = _Struct(struct.suite, _done(call(struct.memory, *words)))
        return state


class _InPieces(_HasStruct):
    """A struct that each call changes: it takes one call at a time, in the process that began it."""

    def _call(self, call: Callable[..., Any], *words: Buffer) -> bytes:
        struct = self._get()
        if struct.process != os.getpid():
            raise StateError(f"this {type(self).__name__} belongs to the process that this one was forked from")
        with struct.lock:
            return _done(call(struct.memory, *words))


_State = TypeVar("_State", bound=_InPieces)


class Sealer(_InPieces):
    """A sealing in pieces under ChaCha20-Poly1305 or AES-GCM: update with each piece of the text, then finish.

    The ciphertexts of the pieces and then the tag are what Key.seal returns for the whole text, however it is cut. If several
    threads call update, the pieces are joined in the order of the calls, which pool.map does not promise: pass the pieces
    from one thread. Never use a nonce twice under one key, not even after a Sealer that was not finished.

    Raises ValueError as Key and Key.sealer do. If this package refuses a call, the sealing and the piece are as they were.
    """

    def __init__(self, suite: int, key: Buffer, nonce: Buffer, *, aad: Optional[Buffer] = None) -> None:
        with Key(suite, key) as kept:
            kept._begin(self, _lib.sealer_init, nonce, aad)

    def update(self, piece: Buffer) -> bytes:
        """Returns the ciphertext of the next piece of the text, which may have any length. ValueError if the whole text would
        be longer than `suite.text_limit`."""
        return self._call(_lib.sealer_update, piece)

    def update_in_place(self, piece: Buffer) -> None:
        """Replaces the next piece of the text by its ciphertext where it stands."""
        self._call(_lib.sealer_update_in_place, piece)

    def finish(self) -> bytes:
        """Ends the sealing, wipes its struct, and returns the tag of 16 bytes."""
        return self._call(_lib.sealer_finish)


class Opener(_InPieces):
    """An opening in pieces under any suite, in two passes over the ciphertext: check with each piece, then begin_second; then
    update with each piece again, then finish.

    The tag, which is the last 16 bytes of a sealing, is not part of the ciphertext. The two passes may be cut differently. No
    text is returned before the whole first pass was authenticated. Use the text only when finish has returned.

    Raises ValueError as Key and Key.opener do. If this package refuses check or update, the opening and the piece are as they
    were.
    """

    def __init__(self, suite: int, key: Buffer, nonce: Buffer, tag: Buffer, *, aad: Optional[Buffer] = None) -> None:
        with Key(suite, key) as kept:
            kept._begin(self, _lib.opener_init, nonce, tag, aad)

    def check(self, piece: Buffer) -> None:
        """Takes the next piece of the ciphertext in the first pass, which may have any length."""
        self._call(_lib.opener_check, piece)

    def begin_second(self) -> None:
        """Ends the first pass and begins the second. InvalidTag if the pieces and the tag are not a sealing, which ends the
        opening and wipes its struct."""
        self._call(_lib.opener_begin_second)

    def update(self, piece: Buffer) -> bytes:
        """Returns the text of the next piece of the ciphertext in the second pass. SourceChanged if the second pass would be
        longer than the first."""
        return self._call(_lib.opener_update, piece)

    def update_in_place(self, piece: Buffer) -> None:
        """Replaces the next piece of the ciphertext by its text where it stands, in the second pass."""
        self._call(_lib.opener_update_in_place, piece)

    def finish(self) -> None:
        """Ends the second pass, and wipes the struct. SourceChanged if its bytes were not those of the first: throw the text
        away."""
        self._call(_lib.opener_finish)


class SivSealer(_InPieces):
    """A sealing in pieces under AES-GCM-SIV, whose tag is computed first, in two passes over the text: absorb with each piece,
    then begin_second, which returns the tag; then update with each piece again, then finish.

    The ciphertexts of the pieces and then the tag are what Key.seal returns for the whole text. The two passes may be cut
    differently. Use the ciphertext only when finish has returned. Never use a nonce twice under one key: two sealings then
    give away whether they are the same.

    Raises ValueError as Key and Key.siv_sealer do. If this package refuses absorb or update, the sealing and the piece are as
    they were.
    """

    def __init__(self, suite: int, key: Buffer, nonce: Buffer, *, aad: Optional[Buffer] = None) -> None:
        with Key(suite, key) as kept:
            kept._begin(self, _lib.siv_init, nonce, aad)

    def absorb(self, piece: Buffer) -> None:
        """Takes the next piece of the text in the first pass, which may have any length. ValueError if the whole text would be
        longer than `suite.text_limit`."""
        self._call(_lib.siv_absorb, piece)

    def begin_second(self) -> bytes:
        """Ends the first pass and begins the second, and returns the tag of 16 bytes."""
        return self._call(_lib.siv_begin_second)

    def update(self, piece: Buffer) -> bytes:
        """Returns the ciphertext of the next piece of the text in the second pass. SourceChanged if the second pass would be
        longer than the first."""
        return self._call(_lib.siv_update, piece)

    def update_in_place(self, piece: Buffer) -> None:
        """Replaces the next piece of the text by its ciphertext where it stands, in the second pass."""
        self._call(_lib.siv_update_in_place, piece)

    def finish(self) -> None:
        """Ends the second pass, and wipes the struct. SourceChanged if its text was not that of the first: throw the ciphertext
        away."""
        self._call(_lib.siv_finish)
