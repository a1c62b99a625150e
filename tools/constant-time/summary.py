#!/usr/bin/env python3
"""Writes the table of docs/SECURITY.md from docs/constant-time.tsv, which `constant-time.sh --record` writes.

summary.py [--write]: without the option it compares, and the status is 1 if the table is stale."""
import pathlib
import sys

TOP = pathlib.Path(__file__).resolve().parent.parent.parent
BUILDS = {"default": "any x86-64-v2 processor", "x86-64-v3": "with AVX2", "aarch64": "AArch64"}
CONSTRUCTIONS = {"ChaCha20-Poly1305": "1", "AES-GCM": "2 3 4", "AES-GCM-SIV": "5 6", "AES key wrap": "16 24 32"}
MARK = "<!-- summary.py: constant-time -->\n\n"


def joined(values):
    return ", ".join(dict.fromkeys(values))


def table():
    lines = (TOP / "docs/constant-time.tsv").read_text(encoding="utf-8").splitlines()
    names = lines[0].removeprefix("# ").split("\t")
    rows = [dict(zip(names, line.split("\t"))) for line in lines[1:]]
    yield "| compiler | build | " + " | ".join(CONSTRUCTIONS) + " | memcheck | at commit |"
    yield "|---" * (4 + len(CONSTRUCTIONS)) + "|"
    for compiler, build in dict.fromkeys((row["compiler"], row["build"]) for row in rows):
        of_build = [row for row in rows if (row["compiler"], row["build"]) == (compiler, build)]
        cells = []
        for suites in CONSTRUCTIONS.values():
            of = [row for row in of_build if row["suite"] in suites.split()]
            found = sum(int(row["branches"]) + int(row["addresses"]) for row in of)
            whole = len(of) == len(suites.split())
            cells.append(f"{found or 'none'} in {sum(int(row['calls']) for row in of)} calls" if whole else "not looked at")
        calls, tainted = (sum(int(row[column]) for row in of_build) for column in ("calls", "memcheck"))
        lengths = joined(row["lengths of memcheck"] for row in of_build if row["lengths of memcheck"] != "none")
        by = f"{'all' if tainted == calls else tainted} calls, {lengths} lengths" if tainted else "no"
        yield f"| {compiler} | {BUILDS[build]} | " + " | ".join(cells) + f" | {by} | {joined(row['commit'] for row in of_build)} |"


def main():
    path = TOP / "docs/SECURITY.md"
    text = path.read_text(encoding="utf-8")
    before, mark, after = text.partition(MARK)
    if not mark:
        sys.exit(f"{path} has no line {MARK.strip()}")
    _, blank, rest = after.partition("\n\n")
    new = before + mark + "\n".join(table()) + blank + rest
    if sys.argv[1:] == ["--write"]:
        path.write_text(new, encoding="utf-8")
    elif new != text:
        sys.exit("docs/SECURITY.md: the table of constant-time.tsv is stale: tools/constant-time/summary.py --write")


if __name__ == "__main__":
    main()
