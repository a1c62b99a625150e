"""Records under a data key, and the data key under a wrapping key that can be changed without touching a record.

Each batch of records has its own random data key, so that the number of a record can be its nonce. The associated data names
the batch, the record's number and the number of records, so that a record cannot be moved, left out or added.
"""

import os
from typing import Dict, List, NamedTuple

from aeadkit import InvalidTag, Key, Suite
from aeadkit.keywrap import InvalidUnwrap, aes_key_unwrap, aes_key_wrap


class Batch(NamedTuple):
    """What is stored: nothing of it is secret."""

    name: str
    wrapping_key: int  # the number of the wrapping key
    wrapped: bytes
    records: List[bytes]

    def label(self, number: int) -> bytes:
        return f"{self.name}: record {number} of {len(self.records)}".encode()


def seal(wrapping_keys: Dict[int, bytes], name: str, texts: List[bytes]) -> Batch:
    newest, data_key = max(wrapping_keys), os.urandom(32)
    batch = Batch(name, newest, aes_key_wrap(wrapping_keys[newest], data_key), texts)
    with Key(Suite.CHACHA20_POLY1305, data_key) as key:
        return batch._replace(records=[key.seal(number.to_bytes(12, "big"), text, aad=batch.label(number))
                                       for number, text in enumerate(texts)])


def data_key_of(wrapping_keys: Dict[int, bytes], batch: Batch) -> bytes:
    """The data key. Raises InvalidUnwrap if it or the number of its wrapping key was changed."""
    if batch.wrapping_key not in wrapping_keys:
        raise InvalidUnwrap(f"there is no wrapping key {batch.wrapping_key}")
    return aes_key_unwrap(wrapping_keys[batch.wrapping_key], batch.wrapped)


def open_batch(wrapping_keys: Dict[int, bytes], batch: Batch) -> List[bytes]:
    """The texts. Raises InvalidUnwrap or InvalidTag if anything was changed."""
    if not batch.records:
        raise InvalidTag("a batch without records has no tag: all of them may have been left out")
    with Key(Suite.CHACHA20_POLY1305, data_key_of(wrapping_keys, batch)) as key:
        return [key.open(number.to_bytes(12, "big"), sealed, aad=batch.label(number))
                for number, sealed in enumerate(batch.records)]


def rewrap(wrapping_keys: Dict[int, bytes], batch: Batch) -> Batch:
    """The batch with its data key under the newest wrapping key, and the records as they are."""
    data_key, newest = data_key_of(wrapping_keys, batch), max(wrapping_keys)
    return batch._replace(wrapping_key=newest, wrapped=aes_key_wrap(wrapping_keys[newest], data_key))


def main() -> None:
    wrapping_keys = {1: os.urandom(32)}
    batch = seal(wrapping_keys, "letters", [b"one", b"two", b"three"])
    wrapping_keys[2] = os.urandom(32)
    batch = rewrap(wrapping_keys, batch)
    del wrapping_keys[1]
    print(open_batch(wrapping_keys, batch))
    for changed in (batch._replace(records=batch.records[::-1]), batch._replace(records=batch.records[:-1]),
                    batch._replace(name="bills"), batch._replace(wrapped=bytes(40)), batch._replace(wrapping_key=7),
                    batch._replace(records=[])):
        try:
            open_batch(wrapping_keys, changed)
        except (InvalidTag, InvalidUnwrap) as fault:
            print("refused:", fault)
        else:
            raise SystemExit("a changed batch was opened")


if __name__ == "__main__":
    main()
