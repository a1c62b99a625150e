"""Converts a module's addresses from 64 to 32 bits: lower.py < MODULE64.wat > MODULE32.wat

The memory and its data are declared with 32-bit addresses, and i32.wrap_i64 is put around each address, and around each length of a
copy or a fill, which cuts it to its lower 32 bits. Nothing else changes: functions still take and compute addresses of 64 bits.
The assembler's validation refuses a module in which an address was missed."""

import re
import sys

ACCESS = re.compile(r"\((?:[if](?:32|64)|v128)\.(?:load|store)[^()]*|\(memory\.(?:copy|fill)\s+")
PARENTHESIS = re.compile(r"[()]")


def end(text, start):
    """Returns where the expression ends that begins at `start`."""
    depth = 0
    for found in PARENTHESIS.finditer(text, start):
        depth += 1 if found[0] == "(" else -1
        if depth == 0:
            return found.end()
    raise SystemExit("lower.py: an expression has no end")


def operands(text, start, count):
    """Yields where each of some operands, from `start` on, begins and ends."""
    for _ in range(count):
        start = text.index("(", start)
        yield start, (start := end(text, start))


def wraps(text):
    """Yields each place where something is put in, and what."""
    for access in ACCESS.finditer(text):
        is_bulk = access[0].startswith("(memory.")
        found = list(operands(text, access.end(), 3 if is_bulk else 1))
        if access[0].startswith("(memory.fill"):
            del found[1]  # the byte
        for start, stop in found:
            yield start, "(i32.wrap_i64 "
            yield stop, ")"


text = sys.stdin.read()
parts, done = [], 0
for place, word in sorted(wraps(text), key=lambda wrap: wrap[0]):
    parts += [text[done:place], word]
    done = place
text = "".join(parts) + text[done:]
text = re.sub(r"^( \(memory \S+) i64 ", r"\1 ", text, flags=re.MULTILINE)
text = re.sub(r"^( \(data (?:\$\S+ )?)\(i64\.const", r"\1(i32.const", text, flags=re.MULTILINE)
sys.stdout.write(text)
