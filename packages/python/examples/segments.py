"""Seals or opens a text of any size in segments, from pipe to pipe: segments.py seal|open KEYFILE LABEL < IN > OUT

KEYFILE holds a wrapping key of 32 random bytes. OUT begins with a head of 48 bytes: MAGIC, the length of a segment's text in 4
bytes with the highest first, and a data key of this text's own, wrapped. Each segment is sealed under the data key. Its nonce
is its number and a byte that is 1 in the last segment alone, and its associated data is the head and LABEL. So a changed,
moved or missing segment is refused, and so is a text that was cut. packages/c/examples/backup.c has this format too.

Opening writes a segment as soon as it is authentic. If a later one is refused, the status is 1: throw OUT away.
"""

import os
import sys
from typing import BinaryIO, Iterator, Tuple

from aeadkit import InvalidTag, Key, Suite
from aeadkit.keywrap import InvalidUnwrap, aes_key_unwrap, aes_key_wrap

# The format.
MAGIC = b"SEG1"
SUITE = Suite.CHACHA20_POLY1305
KEY = 32
HEAD = 8 + KEY + 8  # the wrapped data key is 8 bytes longer
SEGMENT = 1 << 20  # the most bytes of text in a segment; the last one may be shorter, or empty
TAG = 16


def nonce(number: int, last: bool) -> bytes:
    return number.to_bytes(11, "big") + bytes([last])


def segments(source: BinaryIO, size: int) -> Iterator[Tuple[bytes, bytes]]:
    """Each segment with its nonce. An empty source has one segment, which is empty too."""
    number, segment = 0, source.read(size)
    while following := source.read(size):
        yield nonce(number, False), segment
        number, segment = number + 1, following
    yield nonce(number, True), segment


def seal(wrapping_key: bytes, label: bytes, source: BinaryIO, target: BinaryIO) -> None:
    data_key = os.urandom(KEY)
    head = MAGIC + SEGMENT.to_bytes(4, "big") + aes_key_wrap(wrapping_key, data_key)
    target.write(head)
    with Key(SUITE, data_key) as key:
        for once, text in segments(source, SEGMENT):
            target.write(key.seal(once, text, aad=head + label))


def open_sealed(wrapping_key: bytes, label: bytes, source: BinaryIO, target: BinaryIO) -> None:
    head = source.read(HEAD)
    size = int.from_bytes(head[4:8], "big")
    if not head.startswith(MAGIC) or not 0 < size <= SEGMENT:
        raise InvalidUnwrap("not a text in segments")
    with Key(SUITE, aes_key_unwrap(wrapping_key, head[8:])) as key:
        for once, sealed in segments(source, size + TAG):
            target.write(key.open(once, sealed, aad=head + label))


def main() -> None:
    calls = {"seal": seal, "open": open_sealed}
    if len(sys.argv) != 4 or sys.argv[1] not in calls:
        sys.exit("usage: segments.py seal|open KEYFILE LABEL < IN > OUT")
    with open(sys.argv[2], "rb") as file:
        wrapping_key = file.read()
    if len(wrapping_key) != KEY:
        sys.exit("segments.py: KEYFILE is not 32 bytes long")
    label = os.fsencode(sys.argv[3])
    if len(label) > 200:
        sys.exit("segments.py: LABEL is longer than 200 bytes")
    try:
        calls[sys.argv[1]](wrapping_key, label, sys.stdin.buffer, sys.stdout.buffer)
        sys.stdout.buffer.flush()
    except (InvalidTag, InvalidUnwrap, OSError) as fault:
        sys.exit(f"segments.py: {fault}")


if __name__ == "__main__":
    main()
