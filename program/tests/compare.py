#!/usr/bin/env python3
"""Draws command lines, files and vector files, and compares two builds of the program in status, both outputs and the files that
they leave: compare.py PROGRAM PROGRAM [RUNS [SEED]]

It prints the seed, with which a run can be repeated. What clap words in another way from one version to the next is in WORDING.
"""

import os
import random
import re
import subprocess
import sys
import tempfile
from collections import Counter
from pathlib import Path

DOCS = Path(__file__).resolve().parents[2] / "docs"
KEY = "000102030405060708090a0b0c0d0e0f"
NONCE = KEY[:24]
SUITES = ["chacha20-poly1305", "aes-128-gcm", "aes-192-gcm", "aes-256-gcm", "aes-128-gcm-siv", "aes-256-gcm-siv"]
COMMANDS = {
    "seal": ["suite", "key", "nonce", "aad", "text"],
    "open": ["suite", "key", "nonce", "aad", "sealed"],
    "wrap": ["key", "text", "pad"],
    "unwrap": ["key", "sealed", "pad"],
    "seal-file": ["suite", "key", "nonce", "aad", "in", "out"],
    "open-file": ["suite", "key", "nonce", "aad", "in", "out"],
    "check": ["file"],
}
VALUES = ["", KEY, 2 * KEY, KEY + KEY[:16], "00", "0", "zz", NONCE, "1fa68b0a8112b447aef34bd8fb5a7b829d3e862371d2cfe5",
          "00112233445566778899aabbccddeeff", "58e2fccefa7e3061367f1d57a4e7455a", "-", "--", "-h", "-V", "text", "vectors", "out", "link",
          "./text", "/", "none", "-x", "--pad", "é"]
OPTIONS = ["--" + name for name in ("suite", "key", "nonce", "aad", "text", "sealed", "in", "out", "pad", "te", "Key", "help", "version",
                                    "key=")] + ["-h", "-V", "-k", "-hx", "--"]
FILES = ["out", "new"]
# The toolchain's clap words help as the newer versions do.
WORDING = [(b"Print help information", b"Print help"), (b"Print version information", b"Print version")]


def usual(option):
    """A value that suits an option, as a rule."""
    choices = {
        "suite": SUITES, "key": [KEY, KEY + KEY[:16], 2 * KEY], "nonce": [NONCE], "in": ["text", "out", "sealed", "link", "./text"],
        "out": FILES + ["text", "hard"], "text": [KEY, "", KEY + KEY[:16]], "file": ["vectors", "vectors", "text", "none", "/"],
    }.get(option, VALUES)
    return random.choice(choices)


def words():
    """A command line: mostly one that could be meant, with a few mistakes."""
    command = random.choice([*COMMANDS, *COMMANDS, "help", "frob", "--help", "-V", ""])
    line = [command] if random.random() < 0.98 else []
    if command not in COMMANDS:
        line += random.sample([*COMMANDS, *VALUES], random.randint(0, 2))
    for option in COMMANDS.get(command, []):
        chance = random.random()
        if chance < 0.02:
            continue
        value = usual(option) if random.random() < 0.95 else random.choice(VALUES)
        if option == "file":
            line.append(value)
        elif option == "pad":
            line += ["--pad"] * random.randint(0, 1)
        else:
            line += ["--" + option, value] if random.random() < 0.7 else [f"--{option}={value}"]
            if chance > 0.97:
                line += ["--" + option, value]
    if random.random() < 0.1:
        line.insert(random.randint(0, len(line)), random.choice(OPTIONS + VALUES))
    if random.random() < 0.05:
        random.shuffle(line)
    line = [word.encode() for word in line]
    if random.random() < 0.02:
        line.insert(random.randint(0, len(line)), b"\xff")
    return line


def vector_file(records):
    """A vector file of a few published records, often with a mistake."""
    lines = [f"format = {random.randint(1, 2)}"]
    for record in random.sample(records, random.randint(0, 3)):
        lines += ["", *record]
    for _ in range(random.choice([0, 0, 1, 1, 2])):
        at = random.randrange(len(lines))
        change = random.choice(["drop", "twice", "swap", "byte", "space", "comment"])
        if change == "drop":
            del lines[at]
        elif change == "twice":
            lines.insert(at, lines[at])
        elif change == "swap":
            other = random.randrange(len(lines))
            lines[at], lines[other] = lines[other], lines[at]
        elif change == "byte" and lines[at]:
            place = random.randrange(len(lines[at]))
            lines[at] = lines[at][:place] + random.choice("0fgF =\r\té") + lines[at][place + 1:]
        elif change == "space":
            lines[at] = lines[at].replace(" ", random.choice(["", "  "]), 1)
        else:
            lines.insert(at, "# a comment")
        lines = lines or [""]
    return random.choice(["\n", "\n", "\n", "\r\n"]).join(lines).encode() + random.choice([b"\n", b"\n", b""])


def outcome(program, line, files):
    """What a program does with a command line in a folder of these files."""
    with tempfile.TemporaryDirectory() as folder:
        for name, contents in files.items():
            Path(folder, name).write_bytes(contents)
        os.symlink("text", Path(folder, "link"))
        os.link(Path(folder, "text"), Path(folder, "hard"))
        run = subprocess.run([program, *line], cwd=folder, stdin=subprocess.DEVNULL, capture_output=True, timeout=60)
        printed = run.stdout
        for old, new in WORDING:
            printed = printed.replace(old, new)
        left = {file.name: file.read_bytes() for file in sorted(Path(folder).iterdir())}
        return run.returncode, printed, run.stderr, left


def main():
    programs = [os.path.abspath(name) for name in sys.argv[1:3]]
    runs = int(sys.argv[3]) if len(sys.argv) > 3 else 2000
    seed = int(sys.argv[4]) if len(sys.argv) > 4 else random.randrange(2**32)
    random.seed(seed)
    blocks = re.split(r"\n\s*\n", (DOCS / "published.vectors").read_text())
    records = [[line for line in block.split("\n") if line and line[0] != "#"] for block in blocks[1:]]
    statuses = Counter()
    for _ in range(runs):
        sealed = random.choice([b"", b"hello", bytes(16), bytes.fromhex("58e2fccefa7e3061367f1d57a4e7455a"), random.randbytes(70000)])
        files = {"text": random.choice([b"", b"hello", random.randbytes(70000)]), "sealed": sealed, "vectors": vector_file(records)}
        if random.random() < 0.5:
            files["out"] = b"as before"
        line = words()
        one, other = (outcome(program, line, files) for program in programs)
        statuses[one[0]] += 1
        if one != other:
            sys.exit(f"compare.py: seed {seed}: {line}\n{one[:3]}\n{other[:3]}\n"
                     f"files that differ: {[name for name in one[3] if one[3][name] != other[3].get(name)]}\n{files['vectors'].decode()}")
    print(f"ok: {runs} command lines with seed {seed} give the same; statuses {dict(sorted(statuses.items()))}")


main()
