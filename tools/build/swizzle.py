"""Makes one instruction of each look-up that the kit writes as loads: swizzle.py < MODULE.ll > NEW.ll

For x86-64 and AArch64 the kit compiles `swizzle_dyn` to one instruction. For WebAssembly it stores the table in memory, and loads a byte
for each lane of the indices from an address that depends on the lane. This script looks for that chain, compares each of its steps with
the one that the kit is known to write, and puts i8x16.swizzle in its place. An index past the table gives 0 where its highest bit is set,
and else counts modulo 16, as in the chain. A chain with another step fails the script, and so does a lane that is still part of an
address in the result."""

import re
import sys

NAME = r"(%[\w.]+)"
# The steps from a lane of the result back to the lane of the indices: v is the value that the step before it used, n the number of lanes,
# i that of the lane, and b where the sixteen bytes begin in which it looks.
STEPS = [r"insertelement <{n} x i8> (\S+), i8 {v}, i32 {i}", r"load i8, ptr {v}, align 1", r"getelementptr i8, ptr {v}, i64 {v}",
         r"mul i64 {v}, 1", r"add i64 {v}, {b}", r"zext i8 {v} to i64", r"extractelement <{n} x i8> {v}, i32 {i}",
         r"and <{n} x i8> {v}, splat \(i8 15\)"]


def fail(message):
    sys.exit(f"swizzle.py: {message}: the kit writes look-ups otherwise than this script knows")


def lanes_of(first, count):
    return ", ".join(f"i32 {first + lane}" for lane in range(count))


def swizzled(result, table, indices, count):
    """Yields the lines of a look-up: sixteen lanes at a time, each in its own sixteen bytes of the table, and then joined."""
    yield f"  {result}.t = load <{count} x i8>, ptr {table}, align 1"
    yield f"  {result}.i = and <{count} x i8> {indices}, splat (i8 -113)"  # 0x8f
    parts = []
    for first in range(0, count, 16):
        for word in "ti":
            yield (f"  {result}.{word}{first} = shufflevector <{count} x i8> {result}.{word}, <{count} x i8> poison, "
                   f"<16 x i32> <{lanes_of(first, 16)}>")
        yield (f"  {result}.s{first} = call <16 x i8> @llvm.wasm.swizzle(<16 x i8> {result}.t{first}, "
               f"<16 x i8> {result}.i{first})")
        parts.append(f"{result}.s{first}")
    size = 16
    while len(parts) > 1:
        for low, high in zip(parts[::2], parts[1::2]):
            yield (f"  {low}.j = shufflevector <{size} x i8> {low}, <{size} x i8> {high}, "
                   f"<{2 * size} x i32> <{lanes_of(0, 2 * size)}>")
        parts, size = [f"{part}.j" for part in parts[::2]], 2 * size
    yield f"  {result} = or <{count} x i8> {parts[0]}, zeroinitializer"


def chain(made, last, indices, count):
    """Follows the lanes of a look-up back, and returns its table and the names that it makes."""
    names, tables, value = set(), set(), last
    for lane in reversed(range(count)):
        at, before = value, None
        for number, step in enumerate(STEPS):
            names.add(at)
            found = re.fullmatch(step.format(n=count, v=NAME, i=lane, b=lane // 16 * 16), made.get(at, ""))
            if not found:
                fail(f"lane {lane} of a look-up is '{made.get(at)}'")
            if number == 0:
                before, at = found[1], found[2]
            elif number == 2:
                tables.add(found[1])
                at = found[2]
            else:
                at = found[1]
        if at != indices:
            fail("a lane has other indices")
        value = before
    if value != "zeroinitializer" or len(tables) != 1:
        fail("a look-up has two tables")
    return tables.pop(), names


def rewritten(body):
    """Returns the lines of a function with its look-ups made one instruction, and their number."""
    made = {found[1]: found[2] for line in body if (found := re.match(rf"  {NAME} = (.*?)(, !noundef !\d+)?$", line))}
    gone, new = set(), {}
    for name, text in made.items():
        chosen = re.fullmatch(rf"select <(\d+) x i1> {NAME}, <\d+ x i8> {NAME}, <\d+ x i8> zeroinitializer", text)
        sign = chosen and re.fullmatch(rf"icmp sge <\d+ x i8> {NAME}, zeroinitializer", made.get(chosen[2], ""))
        if not sign or not made.get(chosen[3], "").startswith("insertelement"):
            continue
        count = int(chosen[1])
        table, names = chain(made, chosen[3], sign[1], count)
        gone |= names | {chosen[2]}
        new[name] = list(swizzled(name, table, sign[1], count))
    out = []
    for line in body:
        name = line.split(" = ")[0].strip() if " = " in line else None
        if name in new:
            out += new[name]
        elif name not in gone:
            out.append(line)
    text = "\n".join(out)
    used = set(re.findall(r"%[\w.]+", text))
    if gone & used:
        fail(f"{min(gone & used)} is used elsewhere too")
    lanes = set(re.findall(rf"{NAME} = extractelement <\d+ x i8>", text))
    if lanes & set(re.findall(rf"zext i8 {NAME} to i64", text)):
        fail("an address depends on a lane")
    return out, len(new)


def main():
    result, body, count = [], None, 0
    for line in sys.stdin.read().split("\n"):
        if body is None and line.startswith("define "):
            body = []
        if body is None:
            result.append(line)
            continue
        body.append(line)
        if line == "}":
            lines, more = rewritten(body)
            result, body, count = result + lines, None, count + more
    if count:
        result.append("declare <16 x i8> @llvm.wasm.swizzle(<16 x i8>, <16 x i8>)")
    print("\n".join(result))


main()
