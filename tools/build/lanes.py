#!/usr/bin/env python3
"""Counts the loads and stores of a WebAssembly module whose address depends on a lane of a vector: lanes.py MODULE

So the kit compiles look-ups in tables of 16 bytes, by bytes that are secret, unless swizzle.py made instructions of them. The status is 1 if
there is one. An address depends on a lane if it is computed of one, or of a local variable that was last set to a value computed of one."""

import re
import subprocess
import sys

FEATURES = ["--enable-simd", "--enable-bulk-memory", "--enable-sign-ext", "--enable-nontrapping-float-to-int", "--enable-mutable-globals",
            "--enable-multivalue"]
TOKEN = re.compile(r"[()]|\"(?:[^\"\\]|\\.)*\"|[^\s()\"]+")
ACCESS = re.compile(r"(?:[if](?:32|64)|v128)\.(?:load|store)")


def expressions(text):
    """Yields each function of a module as nested lists of words."""
    stack = []
    for token in TOKEN.findall(re.sub(r";;.*|\(;.*?;\)", "", text)):
        if token == "(":
            stack.append([])
        elif token == ")":
            done = stack.pop()
            if len(stack) == 1 and done and done[0] == "func":
                yield done
            elif len(stack) > 1:
                stack[-1].append(done)
        elif stack:
            stack[-1].append(token)


class Function:
    def __init__(self):
        self.locals, self.accesses = set(), 0

    def of_lane(self, expression):
        """Walks an expression in the order in which it is computed, and returns whether its value depends on a lane."""
        operands = [self.of_lane(part) for part in expression if isinstance(part, list)]
        operation, *words = expression if isinstance(expression[0], str) else ["", *expression]
        if ".extract_lane" in operation:
            return True
        if operation == "local.get":
            return words[0] in self.locals
        if operation in ("local.set", "local.tee"):
            (self.locals.add if operands[0] else self.locals.discard)(words[0])
            return operands[0]
        if ACCESS.match(operation):
            self.accesses += operands[0]
            return False
        return any(operands) and not operation.startswith(("call", "v128.const", "i8x16", "i16x8", "i32x4", "i64x2", "v128"))


def main():
    if len(sys.argv) != 2:
        sys.exit("usage: lanes.py MODULE")
    text = subprocess.run(["wasm-dis", *FEATURES, sys.argv[1], "-o", "-"], stdout=subprocess.PIPE, text=True, check=True).stdout
    sys.setrecursionlimit(100_000)
    count = 0
    for body in expressions(text):
        function = Function()
        function.of_lane(body)
        count += function.accesses
    print(f"{sys.argv[1]}: {count} addresses depend on a lane, {text.count('i8x16.swizzle')} look-ups are instructions")
    return count > 0


if __name__ == "__main__":
    sys.exit(main())
