#!/usr/bin/env python3
"""Measures what docs/SPEED.md shows and writes docs/speed.tsv: measure.py PREFIX RUST [RUNS]

PREFIX is what make install laid out with PROGRAM=default: both builds of the library, and the program; RUST what make library
FROM=rust did. It takes a quarter of an hour on a machine that does nothing else."""
import datetime
import os
import pathlib
import re
import resource
import subprocess
import sys
import tempfile

HERE = pathlib.Path(__file__).resolve().parent
SUITES = {"ChaCha20-Poly1305": 32, "AES-128-GCM": 16, "AES-256-GCM": 32, "AES-128-GCM-SIV": 16, "AES-256-GCM-SIV": 32}
FILE = 256 << 20


def run(*words):
    return subprocess.run([str(word) for word in words], check=True, stdout=subprocess.PIPE, text=True).stdout


def processor_time(*words):
    """Returns the nanoseconds of processor time, the system's too, that a program took."""
    before = resource.getrusage(resource.RUSAGE_CHILDREN)
    run(*words)
    after = resource.getrusage(resource.RUSAGE_CHILDREN)
    return 1e9 * (after.ru_utime + after.ru_stime - before.ru_utime - before.ru_stime)


def files(program, room):
    """Yields the lines of the program that seals and opens a file in memory."""
    text, sealed, opened = room / "text", room / "sealed", room / "opened"
    text.write_bytes(os.urandom(FILE))
    for suite, length in SUITES.items():
        key = ["--suite", suite.lower(), "--key", os.urandom(length).hex(), "--nonce", os.urandom(12).hex()]
        for direction, command, source, made in (("sealing", "seal-file", text, sealed), ("opening", "open-file", sealed, opened)):
            times = []
            for _ in range(7):
                made.unlink(missing_ok=True)
                times.append(processor_time(program, command, *key, "--in", source, "--out", made))
            yield f"default\t{suite}\t{direction}\t{FILE}\taeadkit\tplain\tfile\t{min(times):.0f}"


def main():
    (prefix, rust), runs = (pathlib.Path(word).resolve() for word in sys.argv[1:3]), sys.argv[3] if len(sys.argv) > 3 else "10"
    lines, versions = [], {}
    with tempfile.TemporaryDirectory(dir="/dev/shm") as name:
        room = pathlib.Path(name)
        for build, words in (("default", []), ("default", ["--kept"]), ("avx2", ["--avx2"]), ("avx2", ["--avx2", "--kept"]),
                             ("avx2", ["--all"])):
            data = room / "data"
            shown = run(HERE / "bench.sh", prefix, *words, "--data", data, runs)
            versions.update(re.findall(r"(OpenSSL|nettle|libgcrypt|libsodium) (\d[\d.]*\d)", shown))
            lines += [f"{build}\t{line}" for line in data.read_text().splitlines()]
            data.unlink()
        lines += [f"default\t{line}" for line in run(HERE / "bench.sh", prefix, "pieces").splitlines()]
        lines += run(HERE / "bench.sh", prefix, "go").splitlines()
        lines += run(HERE / "bench.sh", prefix, "compilers", rust).splitlines()
        lines += files(prefix / "bin/aeadkit", room)
    processor = re.search(r"model\s+: (\d+)\nmodel name\s+: (.*)", pathlib.Path("/proc/cpuinfo").read_text())
    head = [f"# {processor[2]}, model {processor[1]}, {datetime.date.today()}; " + ", ".join(map(" ".join, sorted(versions.items()))),
            "# the library's build, construction, direction, bytes, whose, what peers may use, keys or manner, nanoseconds"]
    (HERE.parent / "docs/speed.tsv").write_text("\n".join(head + lines) + "\n")


if __name__ == "__main__":
    main()
