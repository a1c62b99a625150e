"""Threads, close and wiping, forks, and copies of keys and of sealings and openings in pieces."""

import copy
import os
import pickle
import subprocess
import sys
import threading
import time
import unittest
from concurrent.futures import ThreadPoolExecutor

from aeadkit import Key, Opener, Sealer, SivSealer, StateError, Suite, aead

KEY = bytes(range(32))
NONCE = bytes(range(12))
TAG = bytes(16)
CHACHA, GCM, SIV = Suite.CHACHA20_POLY1305, Suite.AES_256_GCM, Suite.AES_256_GCM_SIV
LONG = 2 << 20  # a call over so many bytes takes long enough for another thread to come in between


def states():
    """A state of each kind, with the names of its calls and their arguments."""
    key, siv = Key(CHACHA, KEY), Key(SIV, KEY)
    last = ("update", b"piece"), ("update_in_place", memoryview(bytearray(5))), ("finish",)
    opener, siv_sealer = (("check", b"piece"), ("begin_second",), *last), (("absorb", b"piece"), ("begin_second",), *last)
    return [(Sealer(GCM, KEY, NONCE), last), (key.sealer(NONCE), last), (Opener(GCM, KEY, NONCE, TAG), opener),
            (key.opener(NONCE, TAG), opener), (SivSealer(SIV, KEY, NONCE), siv_sealer), (siv.siv_sealer(NONCE), siv_sealer)]


def keys():
    """A key of each suite, with the names of its calls and their arguments."""
    calls = (("seal", NONCE, b"text"), ("open", NONCE, bytes(20)), ("seal_in_place", NONCE, memoryview(bytearray(5))),
             ("open_in_place", NONCE, memoryview(bytearray(5)), TAG), ("sealer", NONCE), ("opener", NONCE, TAG),
             ("siv_sealer", NONCE))
    return [(Key(suite, KEY[: suite.key_bytes]), calls) for suite in Suite]


def at_once(*calls):
    """The results of calls that begin at the same time, each in its own thread."""
    barrier = threading.Barrier(len(calls))

    def run(call):
        barrier.wait()
        return call()

    with ThreadPoolExecutor(len(calls)) as pool:
        return [task.result() for task in [pool.submit(run, call) for call in calls]]


class Threads(unittest.TestCase):
    """assertTrue compares long bytes, since assertEqual takes minutes to print what differs."""

    def test_pieces_have_their_own_parts_of_the_key_stream(self):
        zeros, key = bytes(LONG), Key(CHACHA, KEY)
        expected = key.seal(NONCE, zeros * 2)
        halves = sorted((expected[:LONG], expected[LONG:-16]))
        for _ in range(5):
            sealer = key.sealer(NONCE)
            made = at_once(lambda: sealer.update(zeros), lambda: sealer.update(zeros))
            self.assertTrue(sorted(made) == halves)
            self.assertEqual(sealer.finish(), expected[-16:])
            sealer, pieces = key.sealer(NONCE), [bytearray(LONG), bytearray(LONG)]
            at_once(*[lambda piece=piece: sealer.update_in_place(memoryview(piece)) for piece in pieces])
            self.assertTrue(sorted(map(bytes, pieces)) == halves)
            self.assertEqual(sealer.finish(), expected[-16:])

    def test_a_shared_key(self):
        for key, _ in keys():
            def round_trip(number):
                nonce, text = number.to_bytes(12, "big"), bytes([number]) * number
                return key.open(nonce, key.seal(nonce, text)) == text

            with ThreadPoolExecutor(8) as pool:
                self.assertTrue(all(pool.map(round_trip, range(100))))

    def test_other_threads_run_during_a_call_and_it_holds_its_buffers(self):
        """Only while a call runs, a bytearray that it reads cannot be made longer."""
        key, text = Key(CHACHA, KEY), bytearray(LONG)
        opener = key.opener(NONCE, TAG)
        for call in (lambda: key.seal(NONCE, text), lambda: key.seal(NONCE, b"", aad=text), lambda: opener.check(text),
                     lambda: key.seal_in_place(NONCE, memoryview(text)), lambda: key.sealer(NONCE).update(text)):
            refused = False
            for _ in range(100):
                thread = threading.Thread(target=call)
                thread.start()
                while thread.is_alive() and not refused:
                    try:
                        text.append(0)
                        text.pop()
                    except BufferError:
                        refused = True
                thread.join()
                if refused:
                    break
            self.assertTrue(refused)

    def test_a_signal_handler_may_call_too(self):
        """It interrupts a thread that may hold the lock."""
        lock = Sealer(CHACHA, KEY, NONCE)._struct.lock
        self.assertTrue(lock.acquire() and lock.acquire(blocking=False))


class Closing(unittest.TestCase):
    def test_the_memory_is_wiped(self):
        def leave(held):
            with held[0] as entered:
                self.assertIs(entered, held[0])

        def leave_by_an_exception(held):
            with self.assertRaises(KeyError), held[0]:
                raise KeyError

        for end in (lambda held: held[0].close(), leave, leave_by_an_exception, list.clear):
            for number in range(len(keys() + states())):
                held = [(keys() + states())[number][0]]
                memory = held[0]._struct.memory
                self.assertNotEqual(bytes(memory), bytes(len(bytes(memory))))
                end(held)
                self.assertEqual(bytes(memory), bytes(len(bytes(memory))))

    def test_calls_after_close(self):
        for state, calls in keys() + states():
            state.close()
            state.close()
            for name, *words in calls:
                self.assertRaisesRegex(StateError, "closed", getattr(state, name), *words)
            self.assertRaises(StateError, lambda: state.suite)
            self.assertIn("closed", repr(state))

    def test_close_beside_a_call(self):
        """A call that has begun goes on with its key, and the memory is wiped after it."""
        text = bytes(2 * LONG)
        expected = Key(CHACHA, KEY).seal(NONCE, text)

        def or_closed(call, *words):
            try:
                return call(*words)
            except StateError:
                return None

        for _ in range(5):
            key = Key(CHACHA, KEY)
            sealer, memory = key.sealer(NONCE), key._struct.memory
            whole, piece, _ = at_once(lambda: or_closed(key.seal, NONCE, text), lambda: or_closed(sealer.update, text),
                                      lambda: (time.sleep(0.002), key.close(), sealer.close()))
            self.assertTrue(whole in (None, expected) and piece in (None, expected[:-16]))
            self.assertEqual(bytes(memory), bytes(808))

    def test_a_state_outlives_its_key(self):
        with Key(GCM, KEY) as key:
            sealer, expected = key.sealer(NONCE), key.seal(NONCE, b"text")
        self.assertEqual(sealer.update(b"text") + sealer.finish(), expected)
        self.assertIs(sealer.suite, GCM)

    def test_the_end_of_a_program(self):
        program = ("import aeadkit\nkey = aeadkit.Key(4, bytes(32))\n"
                   "aeadkit.held = [key, key.sealer(bytes(12)), key.opener(bytes(12), bytes(16))]")
        made = subprocess.run([sys.executable, "-W", "error", "-c", program], stderr=subprocess.PIPE, check=True)
        self.assertEqual(made.stderr, b"")


class Copies(unittest.TestCase):
    def test_a_copy_of_a_key_is_the_key(self):
        for key, _ in keys():
            self.assertIs(copy.copy(key), key)
            self.assertIs(copy.deepcopy([key])[0], key)
        self.assertEqual(copy.deepcopy(aead.AESGCM(KEY)).encrypt(NONCE, b"x"), aead.AESGCM(KEY).encrypt(NONCE, b"x"))

    def test_no_copy_of_a_state_and_no_pickle(self):
        for state, _ in states():
            for make in (copy.copy, copy.deepcopy, lambda state: copy.deepcopy({"state": [state]})):
                self.assertRaisesRegex(TypeError, "cannot be copied or pickled", make, state)
        for state, _ in states() + keys() + [(aead.AESGCM(KEY), None)]:
            for protocol in range(pickle.HIGHEST_PROTOCOL + 1):
                self.assertRaisesRegex(TypeError, "cannot be copied or pickled", pickle.dumps, state, protocol)


class Forks(unittest.TestCase):
    def in_child(self, call):
        """Whether the call returns true in a forked process."""
        child = os.fork()
        if child == 0:
            try:
                os._exit(0 if call() else 1)
            except BaseException:
                os._exit(2)
        return os.waitpid(child, 0)[1] == 0

    def test_a_state_stays_in_its_process(self):
        for state, calls in states():
            def refused():
                for name, *words in calls:
                    self.assertRaisesRegex(StateError, "forked", getattr(state, name), *words)
                return True

            self.assertTrue(self.in_child(refused), state)
        sealer = Sealer(GCM, KEY, NONCE)
        made = sealer.update(b"te")
        self.assertFalse(self.in_child(lambda: sealer.update(b"XX")))
        self.assertEqual(made + sealer.update(b"xt") + sealer.finish(), Key(GCM, KEY).seal(NONCE, b"text"))

    def test_a_key_serves_in_both_processes(self):
        key, sealer = Key(GCM, KEY), Sealer(GCM, KEY, NONCE)
        expected = key.seal(NONCE, b"text")

        def serves():
            same = key.seal(NONCE, b"text") == expected
            key.close()
            sealer.close()
            return same

        self.assertTrue(self.in_child(serves))
        self.assertEqual((key.seal(NONCE, b"text"), sealer.update(b"text") + sealer.finish()), (expected, expected))
