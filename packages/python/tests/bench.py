"""Nanoseconds of Key.seal and of encrypt in cryptography (PyCA), and what a call over 100 MiB adds to the memory."""

import mmap
import os
import pathlib
import time

import aeadkit
from cryptography.hazmat.primitives.ciphers import aead as pyca

NONCE, MEMORY = bytes(12), 100 << 20
SUITES = {"ChaCha20-Poly1305": (1, pyca.ChaCha20Poly1305), "AES-256-GCM": (4, pyca.AESGCM),
          "AES-256-GCM-SIV": (6, pyca.AESGCMSIV)}


def mapped(data):
    memory = mmap.mmap(-1, len(data))
    memory[:] = data
    return memory


BUFFERS = {"bytes": bytes, "bytearray": bytearray, "memoryview": memoryview, "mmap": mapped}


def least(calls, count):
    """The least time of each call in many rounds, in which they take turns."""
    times = [[] for _ in calls]
    for _ in range(100):
        for call, found in zip(calls, times):
            start = time.perf_counter_ns()
            for _ in range(count):
                call()
            found.append((time.perf_counter_ns() - start) / count)
    return [round(min(found)) for found in times]


def added(make, call):
    """What a call adds to the most memory that a process of its own ever has, in MiB."""
    def most():
        status = pathlib.Path("/proc/self/status").read_text()
        return int(status.split("VmHWM:")[1].split()[0]) >> 10

    child = os.fork()
    if child == 0:
        data = make(b"x" * MEMORY)
        pathlib.Path("/proc/self/clear_refs").write_text("5")
        before = most()
        call(data)
        os._exit(most() - before)
    return os.waitstatus_to_exitcode(os.waitpid(child, 0)[1])


print("nanoseconds: aeadkit cryptography")
for name, (suite, peer) in SUITES.items():
    key, peer_key = aeadkit.Key(suite, bytes(32)), peer(bytes(32))
    for size in (16, 1 << 10, 64 << 10, 1 << 20):
        text = bytes(size)
        calls = (lambda: key.seal(NONCE, text), lambda: peer_key.encrypt(NONCE, text, None))
        print(f"{name}, {size} bytes:", *least(calls, max(1, 100_000 // (size + 2000))))
key = aeadkit.Key(1, bytes(32))
for name, call in {"seal": lambda data: key.seal(NONCE, data), "check": lambda data: key.opener(NONCE, bytes(16)).check(data),
                   "cryptography": lambda data: pyca.ChaCha20Poly1305(bytes(32)).encrypt(NONCE, data, None)}.items():
    print(f"MiB, {name}:", *[f"{kind} {added(make, call)}" for kind, make in BUFFERS.items()])
