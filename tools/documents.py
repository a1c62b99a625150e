#!/usr/bin/env python3
"""Compares the documents with what they speak of: quotations, links, names of code, docs/published.vectors, and one advice.

Run without words, it says what differs. documents/sheets.py compares the definitions, and bench/speed.py the figures."""

import itertools
import pathlib
import re
import sys
import textwrap

TOP = pathlib.Path(__file__).resolve().parent.parent
faults = []


def wrong(place, message):
    faults.append(f"{place}: {message}")


def lines_of(path):
    return (TOP / path).read_text().splitlines()


def paths(*patterns):
    """The paths of the repository's files that fit, without what builds leave."""
    found = [str(path.relative_to(TOP)) for pattern in patterns for path in sorted(TOP.glob(pattern)) if path.is_file()]
    return [path for path in found if not re.search(r"(^|/)(out|build|target|node_modules)/", path)]


def words(text):
    """The words in backticks."""
    return re.findall(r"`([^`]+)`", text)


# ---- Quotations: a block in a fence, or indented by 4, under a line that ends in "From `PATH`:", or is the comment <!-- from PATH -->.


def quotations():
    count = 0
    for path in paths("README.md", "docs/*.md", "packages/**/*.md", "crates/*/src/**/*.rt"):
        texts = lines_of(path)
        if path.endswith(".rt"):
            texts = [text[3:].removeprefix(" ") if text.startswith("//!") else None for text in texts]
        for at, text in enumerate(texts):
            named = text and re.search(r"From `([^`]+)`:$|^<!-- from (\S+) -->$", text.rstrip())
            if named:
                count += 1
                rest = [text.rstrip() for text in itertools.takewhile(lambda text: text is not None, texts[at + 1 :])]
                compare(f"{path}:{at + 1}", named[1] or named[2], list(itertools.dropwhile(lambda text: not text, rest)))
    return f"{count} quotations"


def compare(place, path, rest):
    """Looks for the block that the lines begin with, which stands in the file one line after the other, perhaps further right."""
    if rest and rest[0].lstrip().startswith("```"):
        block = itertools.takewhile(lambda text: not text.lstrip().startswith("```"), rest[1:])
    else:
        block = itertools.takewhile(lambda text: not text or text.startswith("    "), rest)
    block = dedented(block)
    if block == [""]:
        wrong(place, "no block follows")
    elif not (TOP / path).is_file():
        wrong(place, f"no file {path}")
    else:
        source = [line.rstrip() for line in lines_of(path)]
        if not any(dedented(source[i : i + len(block)]) == block for i in range(len(source))):
            stripped = {line.strip() for line in source}
            missing = [line for line in block if line.strip() not in stripped]
            wrong(place, f"these lines do not stand in {path}, where there is no: {(missing or block)[0]}")


def dedented(block):
    return textwrap.dedent("\n".join(block)).strip("\n").split("\n")


# ---- Links, paths and names.


def links():
    counts = {"links": 0, "names": 0, "paths": 0}
    mapped = set()
    for document in paths("README.md", "docs/*.md", "packages/README.md", "packages/*/README.md"):
        fenced, crate, in_map = False, None, False
        for number, line in enumerate(lines_of(document), 1):
            place = f"{document}:{number}"
            fenced ^= line.lstrip().startswith("```")
            if fenced or line.lstrip().startswith("```"):
                continue
            in_map = line.startswith("|") and (in_map or line == "| crate | modules | what they are |")
            if in_map and not re.match(r"\|-|\| crate ", line):
                crate = map_row(place, line, crate, mapped)
            for name, target in re.findall(r"\[`([^`]+)`\]\(([^)]+\.rt)\)", line):
                counts["names"] += 1
                path = joined(document, target)
                if path.is_file() and name not in items(path):
                    wrong(place, f"no {name} in {target}")
            for word in words(line):
                counts["paths"] += check_word(place, word)
            for target in re.findall(r"\]\(([^)]+)\)", re.sub(r"`[^`]*`", "", line)):
                if not re.match(r"[a-z]+:", target):
                    counts["links"] += 1
                    check_link(place, document, target)
    for path in paths("crates/*/src/**/*.rt"):
        if not path.endswith("/lib.rt") and "/src/tests/" not in path and path not in mapped:
            wrong("the map of the modules", f"{path} is left out")
    return ", ".join(f"{count} {what}" for what, count in counts.items()) + f", a map of {len(mapped)} modules"


def joined(document, target):
    return (TOP / document).parent / target


def check_link(place, document, target):
    target, _, anchor = target.partition("#")
    path = joined(document, target) if target else TOP / document
    if not path.exists():
        wrong(place, f"no file {target}")
    elif anchor and anchor not in headings(path):
        wrong(place, f"no heading #{anchor} in {target or document}")


def headings(path):
    """The headings of a document, as the targets that a link has after its #."""
    text = re.sub(r"(?ms)^ *```.*?^ *```", "", path.read_text())
    found = [re.sub(r"\]\([^)]*\)", "", heading).lower() for heading in re.findall(r"(?m)^#+ +(.*)$", text)]
    return {re.sub(r"[^a-z0-9 _-]", "", heading).replace(" ", "-") for heading in found}


def items(path):
    """The items of a source file: `name`, and `Type::name` for each word of the head of an impl or a trait."""
    found, head = set(), ""
    lines = iter(path.read_text().splitlines())
    for line in lines:
        head = "" if line.startswith("}") else head
        if re.match(r"(pub(\([a-z]+\))? )?(unsafe )?(impl|trait)[ <]", line):
            while "{" not in line:
                line += " " + next(lines, "{")
            head = line
        if name := re.match(r' *(?:pub(?:\([a-z]+\))? )?(?:const )?(?:unsafe )?(?:extern "C" )?fn (\w+)', line):
            found |= {f"{word}::{name[1]}" for word in re.findall(r"\w+", head)} | ({name[1]} if line[0] != " " else set())
        elif name := re.match(r"(?:pub(?:\([a-z]+\))? )?(?:unsafe )?(?:struct|enum|trait|type|const|static) (\w+)", line):
            found.add(name[1])
    return found


def check_word(place, word):
    """Looks for a word in backticks if it is a path: of the repository, or of a crate that is neither the kit's nor a reader's."""
    if not re.fullmatch(r"[\w.*{},/-]+", word) or re.search(r"/out/|^crates/mine(/|$)", word):
        return 0
    if "/" not in word or re.search(r"(^|[/_])(CRATE|NAME|FILE|MISTAKE)([/_.]|$)", word):
        return 0
    if re.match(r"[a-z0-9_*]+/(src|specs|proofs|must-fail)(/|$)", word) and not word.startswith("core/"):
        word = "crates/" + word
    if not re.match(r"(crates|packages|program|tools|bench|docs)/", word):
        return 0
    for path in expanded(word):
        if not any(TOP.glob(path.rstrip("/"))):
            wrong(place, f"no file {path}")
    return 1


def expanded(path):
    """The paths that one with braces stands for."""
    if braces := re.search(r"\{([^}]*)\}", path):
        return [it for part in braces[1].split(",") for it in expanded(path[: braces.start()] + part + path[braces.end() :])]
    return [path]


def map_row(place, line, crate, mapped):
    """Takes in a row of the map: modules of a crate, which is named in the first of its rows."""
    _, first, modules, *_ = line.split("|")
    crate = (words(first) or [crate])[0]
    for module in words(modules):
        path = f"crates/{crate}/src/{module}.rt"
        if path in mapped or not (TOP / path).is_file():
            wrong(place, f"{path} is not there, or stands twice")
        mapped.add(path)
    return crate


# ---- docs/published.vectors has the published vectors of the tests, each under its source, and records that are refused.


def published():
    path = "docs/published.vectors"
    blocks = [block.splitlines() for block in (TOP / path).read_text().split("\n\n")]
    records = [block for block in blocks if any(line.startswith("suite = ") for line in block)]
    opened = []
    for block in records:
        if not block[0].startswith("#"):
            wrong(path, f"no source above {block[0]}")
        values = [line.partition("=")[2].strip() or "-" for line in block if " =" in line and not line.startswith(("#", "format"))]
        if block[-1] != "invalid":
            opened.append(" ".join(values))
    # those of the tests stand up to the first that no standard publishes; a string may take several lines
    text = re.sub(r"\\\n *", "", (TOP / "crates/aeadkit/src/tests/published.rt").read_text().split("PADDED_LENGTHS")[0])
    tests = re.findall(r'"((?:chacha20|aes)-[^"]*)"', text)
    for vector in set(opened) ^ set(tests):
        wrong(path, f"this vector stands in one of the file and the tests alone: {vector}")
    if f"prints `records {len(records)}`." not in blocks[0][0]:
        wrong(path, f"the first line does not say that there are {len(records)} records")
    return f"{len(records)} published vectors, {len(records) - len(opened)} of them refused"


# ---- The advice which suite to take is the same wherever it stands.


def advice():
    path = "docs/SECURITY.md"
    flat = {file: " ".join(re.sub(r"(?m)^ *(\*|//[/!]|#) ", "", (TOP / file).read_text()).split()) for file in (path, *ADVISING)}
    given = re.search(r"Take ChaCha20-Poly1305 with .*? demands it\.", flat[path])[0]
    for file, text in flat.items():
        if given not in text:
            wrong(file, f"the advice of {path} is not there: {given}")
    return f"one advice in {len(flat)} files"


ADVISING = ["README.md", "packages/c/include/aeadkit.h", "packages/rust/src/suite.rs", "packages/python/aeadkit/__init__.py",
            "packages/javascript/aeadkit.d.mts"]


if sys.argv[1:]:
    sys.exit(__doc__)
done = [quotations(), links(), published(), advice()]
if faults:
    sys.exit("\n".join(faults))
print("ok: " + "; ".join(done))
