#!/usr/bin/env python3
"""Writes the tables of README.md and docs/SPEED.md and the plot docs/pictures/speed.svg from the figures that measure.py wrote.

speed.py [--write]: without the option it compares, and the status is 1 if something is stale."""
import math
import pathlib
import re
import sys

TOP = pathlib.Path(__file__).resolve().parent.parent
LENGTHS = [16, 64, 256, 1024, 4096, 16384]
SHORT = {"libgcrypt": "lg", "nettle": "ne", "OpenSSL": "os", "libsodium": "so"}


def figures():
    """Returns {(build, peers, keys, kind, direction, length): {party: nanoseconds}}."""
    found = {}
    for line in (TOP / "docs/speed.tsv").read_text().splitlines():
        if line and not line.startswith("#"):
            build, kind, direction, length, party, peers, keys, time = line.split("\t")
            found.setdefault((build, peers, keys, kind, direction, int(length)), {})[party] = float(time)
    return found


def size(length):
    return f"{length // 1024} KiB" if length >= 1024 else f"{length} bytes"


def table(found, build, peers, keys):
    """Returns a table: the library's nanoseconds, and how many times as fast as the best peer it is."""
    kinds = [kind for kind in dict.fromkeys(key[3] for key in found if key[:3] == (build, peers, keys))
             if kind not in ("AES-192-GCM", "AES-256-WRAP")]
    lines = ["| | | " + " | ".join(map(size, LENGTHS)) + " |", "|---|---|" + "---|" * len(LENGTHS)]
    for kind in kinds:
        for direction in ("sealing", "opening"):
            if direction == "opening" and "GCM" in kind:
                continue
            cells = []
            for length in LENGTHS:
                of = dict(found.get((build, peers, keys, kind, direction, length), {}))
                own = of.pop("aeadkit", None)
                best = min(of, key=of.get) if of else None
                cells.append("" if own is None else f"{own:.0f}" + (f", {of[best] / own:.2f} {SHORT[best]}" if best else ""))
            lines.append(f"| {kind} | {direction} | " + " | ".join(cells) + " |")
    return "\n".join(lines)


def gigabytes(length, time):
    return f"{length / time:.2f}"


def long_texts(found):
    """Returns the table of GB/s over 1 MiB, whole and in pieces, and over the program's file."""
    manners = {"whole": "whole", "64 KiB": "in pieces of 64 KiB", "16 KiB": "of 16 KiB", "1 KiB": "of 1 KiB", "aeadkit": "a file"}
    lines = ["| | | " + " | ".join(manners.values()) + " |", "|---|---|" + "---|" * len(manners)]
    rows = {}
    for (_, _, keys, kind, direction, length), of in found.items():
        if keys in ("pieces", "file"):
            rows.setdefault((kind, direction), {}).update({manner: gigabytes(length, time) for manner, time in of.items()})
    return "\n".join(lines + [f"| {kind} | {direction} | " + " | ".join(rates[manner] for manner in manners) + " |"
                              for (kind, direction), rates in rows.items()])


def beside_go(found):
    """Returns the table of short texts beside Go: the library's nanoseconds, and Go's."""
    lengths = sorted({length for (_, _, keys, _, _, length) in found if keys == "go"})
    lines = ["| | | " + " | ".join(map(size, lengths)) + " |", "|---|---|" + "---|" * len(lengths)]
    for build, peers, name in (("default", "plain", "default"), ("avx2", "avx2", "AVX2")):
        for direction in ("sealing", "opening"):
            of = [found[build, peers, "go", "ChaCha20-Poly1305", direction, length] for length in lengths]
            lines.append(f"| {name} | {direction} | " + " | ".join(f"{one['aeadkit']:.0f} / {one['Go']:.0f}" for one in of) + " |")
    return "\n".join(lines)


def compilers(found):
    """Returns the table of sealing under a kept key: the nanoseconds of the build that the kit compiles, and those of rustc's."""
    kinds = list(dict.fromkeys(kind for (_, peers, _, kind, _, _) in found if peers == "compilers"))
    lines = ["| | | " + " | ".join(map(size, LENGTHS)) + " |", "|---|---|" + "---|" * len(LENGTHS)]
    for kind in kinds:
        for build, name in (("default", "x86-64-v2"), ("avx2", "x86-64-v3"), ("avx512", "x86-64-v4")):
            of = [found.get((build, "compilers", "kept", kind, "sealing", length), {}) for length in LENGTHS]
            if any(of):
                lines.append(f"| {kind} | {name} | " + " | ".join(" / ".join(f"{one[by]:.0f}" for by in ("kit", "rustc") if by in one) for one in of) + " |")
    return "\n".join(lines)


def sides(found, build, peers, kind, length):
    """Returns the library's time of sealing under a new key, and {peer: time}."""
    of = dict(found[build, peers, "new", kind, "sealing", length])
    return of.pop("aeadkit"), of


def summary(found):
    """Returns the table of README: GB/s of sealing 16 KiB under a new key."""
    lines = ["| | on x86-64-v2 | with AVX2 | the fastest of the others |", "|---|---|---|---|"]
    for kind in ("ChaCha20-Poly1305", "AES-256-GCM", "AES-256-GCM-SIV"):
        plain, _ = sides(found, "default", "plain", kind, 16384)
        wide, others = sides(found, "avx2", "all", kind, 16384)
        best = min(others, key=others.get)
        lines.append(f"| {kind} | {gigabytes(16384, plain)} | {gigabytes(16384, wide)} | {gigabytes(16384, others[best])}, {best} |")
    return "\n".join(lines)


def plot(found):
    """Returns the picture of sealing under new keys: bytes in a second over the length of a text."""
    kinds = ["ChaCha20-Poly1305", "AES-256-GCM", "AES-256-GCM-SIV"]
    width, height, top, low, high = 200, 150, 48, math.log10(5), math.log10(6000)
    out = ['<svg xmlns="http://www.w3.org/2000/svg" viewBox="0 0 790 256" font-family="sans-serif" font-size="11">',
           "<style>text{fill:#333}.grid{stroke:#ccc}.own{stroke:#0b62a4;fill:#0b62a4}.wide{stroke:#5aa9e6;fill:#5aa9e6}"
           ".peer{stroke:#c0392b;fill:#c0392b}polyline{fill:none!important;stroke-width:2}"
           "@media (prefers-color-scheme:dark){text{fill:#ddd}.grid{stroke:#555}}</style>"]

    def rates(kind, build, peers, own):
        of = [(length, sides(found, build, peers, kind, length)) for length in LENGTHS]
        return [1000 * length / (time if own else min(others.values())) for length, (time, others) in of]

    for k, kind in enumerate(kinds):
        left = 56 + k * 244

        def at(i, rate):
            return f"{left + i * width / 5:.1f},{top + height - (math.log10(rate) - low) / (high - low) * height:.1f}"

        out.append(f'<text x="{left}" y="{top - 14}" font-size="13" font-weight="bold">{kind}</text>')
        for rate, name in ((10, "10 MB/s"), (100, "100 MB/s"), (1000, "1 GB/s")):
            y = at(0, rate).split(",")[1]
            out.append(f'<line class="grid" x1="{left}" x2="{left + width}" y1="{y}" y2="{y}"/>')
            if k == 0:
                out.append(f'<text x="{left - 4}" y="{y}" text-anchor="end">{name}</text>')
        for i, length in enumerate(LENGTHS):
            name = size(length).replace(" bytes", "").replace(" KiB", "K")
            out.append(f'<text x="{left + i * width / 5:.1f}" y="{top + height + 14}" text-anchor="middle">{name}</text>')
        for style, dash, values in (("own", "", rates(kind, "default", "plain", True)), ("wide", "", rates(kind, "avx2", "avx2", True)),
                                    ("peer", ' stroke-dasharray="5 3"', rates(kind, "avx2", "avx2", False)),
                                    ("peer", "", rates(kind, "avx2", "all", False))):
            points = " ".join(at(i, rate) for i, rate in enumerate(values))
            out.append(f'<polyline class="{style}" points="{points}"{dash}/>')
    for x, style, dash, name in ((56, "own", "", "aeadkit, default build"), (216, "wide", "", "aeadkit with AVX2"),
                                 (354, "peer", ' stroke-dasharray="5 3"', "best peer with AVX2, no AES instructions"),
                                 (634, "peer", "", "best peer as shipped")):
        out.append(f'<polyline class="{style}" points="{x},240 {x + 24},240"{dash}/><text x="{x + 30}" y="244">{name}</text>')
    return "\n".join(out + ["</svg>", ""])


def main():
    found, stale = figures(), []
    made = {"long texts": long_texts(found), "summary": summary(found), "beside Go": beside_go(found), "compilers": compilers(found)}
    for words in ("default plain new", "avx2 avx2 new", "default plain kept", "avx2 avx2 kept", "avx2 all new"):
        made[words] = table(found, *words.split())

    def filled(name):
        """Returns a document with its tables: each follows a mark, and ends at an empty line."""
        return re.sub(r"(<!-- speed\.py: (.*?) -->\n\n).*?\n\n", lambda mark: f"{mark[1]}{made[mark[2]]}\n\n",
                      (TOP / name).read_text(), flags=re.DOTALL)

    for path, new in [(TOP / name, filled(name)) for name in ("README.md", "docs/SPEED.md")] + [
            (TOP / "docs/pictures/speed.svg", plot(found))]:
        if not path.exists() or path.read_text() != new:
            stale.append(path.name)
            if "--write" in sys.argv[1:]:
                path.parent.mkdir(exist_ok=True)
                path.write_text(new)
    if stale and "--write" not in sys.argv[1:]:
        sys.exit(f"stale: {', '.join(stale)}; bench/speed.py --write writes them")
    print("ok: the tables and the plot have the figures of docs/speed.tsv")


if __name__ == "__main__":
    main()
