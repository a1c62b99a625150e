#!/usr/bin/env python3
"""Erases contracts and ghosts from the crates: what is left is Rust that `cargo` builds.

erase.py            writes packages/rust/src/proved, packages/c/rust/src/exports.rs and packages/rust/program/src
erase.py --check    fails if what stands there is not what it would write
erase.py --count    says how much it deleted and how often each rewrite applied
Another folder of crates than the repository's may be given by `--crates FOLDER`, and another one to write to by `--to FOLDER`.
"""
import argparse, collections, pathlib, re, subprocess, sys, tempfile

import exports
import forms
import rewrites
from source import Refused, Source, Token, written

TOP = pathlib.Path(__file__).resolve().parents[2]
PROVED, PROGRAM, EXPORTS = "packages/rust/src/proved", "packages/rust/program/src", "packages/c/rust/src/exports.rs"
COUNT = collections.Counter()


def attributes(source):
    """Deletes `#[tactic(..)]` and `Drop` in derives."""
    tokens = source.tokens
    for at in range(len(tokens) - 1, -1, -1):
        if tokens[at].text != "#" or not (source.is_at(at, 1, "[") or source.is_at(at, 1, "!", "[")):
            continue
        end = source.close(source.find(at, "[")) + 1
        inner = "".join(token.text for token in tokens[at:end] if token.is_code()).strip("#![]")
        if inner.startswith("tactic("):
            COUNT["#[tactic(..)]"] += 1
            source.delete(at, end, with_comments=False)
        elif inner.startswith("derive("):
            names = inner[len("derive("):-1].strip(",").split(",")
            for name in names:
                if name not in forms.DERIVES:
                    source.refuse(tokens[at].line, f"the eraser does not know whether `{name}` derives the same in Rust")
            if "Drop" in names:
                COUNT["`Drop` in derives"] += 1
                names.remove("Drop")
                if names:
                    tokens[at:end] = source.lex(f"#[derive({', '.join(names)})]")
                else:
                    tokens[at:source.near(end - 1, 1)] = []
        elif inner not in forms.ATTRIBUTES:
            source.refuse(tokens[at].line, f"the eraser does not know the attribute `{inner}`")


def bounds(source):
    """Deletes `Drop` in bounds: in Rust every value may be dropped."""
    tokens = source.tokens
    for at in range(len(tokens) - 1, -1, -1):
        if tokens[at].text == "Drop" and tokens[at].kind == "word":
            before, behind = source.near(at, -1), source.near(at, 1)
            COUNT["`Drop` in bounds"] += 1
            if tokens[before].text == "+":
                del tokens[before:at + 1]
            elif tokens[before].text == ":" and tokens[behind].text == "+":
                del tokens[at:source.near(behind, 1)]
            elif tokens[before].text == ":":
                del tokens[before:at + 1]
            else:
                source.refuse(tokens[at].line, "`Drop` elsewhere than in a derive or a bound")


def item_start(source, at):
    """Where the item whose keyword stands at `at` begins, with its attributes and `pub`."""
    while (before := source.near(at, -1)) is not None:
        text = source.tokens[before].text
        if text == ")" or text == "]":
            start = next(i for i in range(before, -1, -1) if source.tokens[i].text in "([" and source.close(i) == before)
            start = source.near(start, -1)
            if text == "]" and source.tokens[start].text != "#" or text == ")" and source.tokens[start].text != "pub":
                return at
            at = start
        elif text in ("pub", "const", "unsafe"):
            at = before
        else:
            return at
    return at


def items(source, laws):
    """Deletes ghost items and clauses, models, and laws with their calls."""
    for at in range(len(source.tokens) - 1, -1, -1):
        if at >= len(source.tokens):
            continue
        token = source.tokens[at]
        if token.kind in ("ghost", "ghost use", "requires", "ensures"):
            COUNT[token.kind] += 1
            before = source.near(at, -1)
            if before is not None and source.tokens[before].text == "pub":
                source.refuse(token.line, "`pub` before a ghost item")
            source.delete(at, at + 1)
        elif token.text == "impl" and (body := source.find(at, "{", ";")) is not None:
            words = [part.text for part in source.tokens[at:body] if part.is_code()]
            if "Model" in words:
                COUNT["impl Model"] += 1
                source.delete(item_start(source, at), source.close(body) + 1)
        elif token.text in laws and token.kind == "word" and source.is_at(at, 1, "("):
            before, end = source.near(at, -1), source.close(source.near(at, 1))
            if source.tokens[before].text == "fn" and source.is_at(end, 1, "{", "}"):
                COUNT["laws"] += 1
                source.delete(item_start(source, before), source.close(source.near(end, 1)) + 1)
            elif source.tokens[before].text in "{};" and source.is_at(end, 1, ";"):
                COUNT["calls of laws"] += 1
                if source.tokens[before].text == "{" and source.is_at(end, 1, ";", "}"):
                    source.delete(loop_start(source, before), source.close(before) + 1)
                else:
                    source.delete(at, source.near(end, 1) + 1)
            else:
                source.refuse(token.line, f"the law `{token.text}` is called for its value, or a function has its name")


def loop_start(source, body):
    """Where the `for` begins whose body begins at `body`."""
    at = body
    while source.tokens[at].text != "for":
        at = source.near(at, -1)
        if source.tokens[at].text in "{};":
            source.refuse(source.tokens[body].line, "a block that calls a law alone, and is not that of a `for`")
    return source.near(source.near(at, -1), -1) if source.is_at(at, -1, ":") else at


def modules(source, gone):
    """Deletes the declarations of modules that serve proofs alone."""
    folder = re.sub(r"/(lib|main)\.rt$|\.rt$", "", source.path)
    for at in range(len(source.tokens) - 1, -1, -1):
        if source.tokens[at].text == "mod" and f"{folder}/{source.tokens[source.near(at, 1)].text}.rt" in gone:
            COUNT["modules for proofs alone"] += 1
            source.delete(item_start(source, at), source.find(at, ";") + 1)


def laws_of(source):
    """The laws of a source: functions that take and do nothing but to show a fact, which is their contract."""
    at = source.find(0, "fn")
    while at is not None:
        name = source.near(at, 1)
        here = source.near(source.close(source.near(name, 1)), 1)
        while source.tokens[here].kind in ("requires", "ensures"):
            if source.tokens[here].kind == "ensures" and source.is_at(here, 1, "{", "}"):
                yield source.tokens[name].text
            here = source.near(here, 1)
        at = source.find(here, "fn")


def labels(source):
    """Deletes the labels of loops that no `break` or `continue` names."""
    tokens = source.tokens
    named = {tokens[at].text for at in range(len(tokens))
             if tokens[at].kind == "label" and (source.is_at(at, -1, "break") or source.is_at(at, -1, "continue"))}
    for at in range(len(tokens) - 1, -1, -1):
        if tokens[at].kind == "label" and tokens[at].text not in named and source.is_at(at, 1, ":"):
            loop = source.near(source.near(at, 1), 1)
            if tokens[loop].text in ("for", "loop", "while"):
                COUNT["labels"] += 1
                del tokens[at:loop]


def mapped(source, crate, segments, line):
    """The path in Rust of a path's first segments, and how many these are: None for a name that only proofs use."""
    root = segments[0]
    if root == "crate" or root in rewrites.LIBRARY + rewrites.PROGRAM and root != crate:
        return home(crate if root == "crate" else root, crate), 1
    names = rewrites.LIBRARY_NAMES if crate in rewrites.LIBRARY else rewrites.PROGRAM_NAMES
    for length in range(len(segments), 0, -1):
        if (path := "::".join(segments[:length])) in names:
            COUNT[f"paths of {root}"] += 1
            return names[path], length
    if root == "std" or root in rewrites.PROGRAM_NAMES:
        source.refuse(line, f"the eraser does not know where `{'::'.join(segments)}` stands in Rust")
    return root, 1


def home(crate, seen_from):
    """Where a crate's root stands, seen from another crate."""
    if crate in rewrites.LIBRARY:
        return f"{'crate::proved' if seen_from in rewrites.LIBRARY else 'aeadkit::internals'}::{crate}"
    return "crate" if crate == "aeadkit" else f"crate::{crate}"


def leaves(source, at, end, head=()):
    """The paths of a tree of imports between two indices, as lists of words."""
    path = list(head)
    while at is not None and at < end:
        text = source.tokens[at].text
        if text == "{":
            close, inner = source.close(at), source.near(at, 1)
            while inner < close:
                comma = source.find(inner, ",", "}")
                yield from leaves(source, inner, comma, path)
                inner = source.near(comma, 1) if source.tokens[comma].text == "," else close
            return
        if text == "as":
            path[-1] += " as " + source.tokens[source.near(at, 1)].text
            break
        if text != "::":
            path.append(text)
        at = source.near(at, 1)
    yield path


def modules_of(source):
    """The names of the modules and the enums that a source declares."""
    return {source.tokens[source.near(at, 1)].text for at, token in enumerate(source.tokens) if token.text in ("mod", "enum")}


def imports(source, crate, laws):
    """Makes one token of each `use`, which holds the paths in Rust."""
    tokens = source.tokens
    for at in range(len(tokens) - 1, -1, -1):
        if tokens[at].text == "use" and tokens[at].kind == "word":
            end = source.find(at, ";")
            paths, own = [], {"crate", "self", "super", crate} | modules_of(source)
            for path in leaves(source, source.near(at, 1), end):
                place, length = mapped(source, crate, path, tokens[at].line)
                if place is None or path[-1] in laws:
                    continue
                if place == path[0] and path[0] not in own and place not in rewrites.PROGRAM_NAMES:
                    source.refuse(tokens[at].line, f"the eraser does not know the crate `{place}`")
                else:
                    paths.append("::".join(place.split("::") + path[length:]))
            start = item_start(source, at)
            while tokens[start].text == "#":
                start = source.near(source.close(source.near(start, 1)), 1)
            token = Token("import", "", tokens[at].line)
            visibility = "".join(part.text for part in tokens[start:at])
            token.paths, token.visibility = paths, visibility.replace("pub(crate)", f"pub(in {home(crate, crate)})")
            tokens[start:end + 1] = [token]


def paths(source, crate):
    """Gives every path in the code its place in Rust, and every link in a comment."""
    tokens = source.tokens
    for at in range(len(tokens) - 1, -1, -1):
        if tokens[at].kind == "comment":
            tokens[at].text = re.sub(r"([`(])crate::", rf"\1{home(crate, crate)}::", tokens[at].text)
        before = source.near(at, -1)
        is_inside = before is not None and tokens[before].text in ("::", ".")
        if tokens[at].kind != "word" or tokens[at].is_new or is_inside or not source.is_at(at, 1, "::"):
            continue
        words, last = [tokens[at].text], [at]
        while source.is_at(last[-1], 1, "::") and tokens[behind := source.near(source.near(last[-1], 1), 1)].kind == "word":
            words.append(tokens[behind].text)
            last.append(behind)
        place, length = mapped(source, crate, words, tokens[at].line)
        if place is None:
            source.refuse(tokens[at].line, f"`{'::'.join(words)}` outside of a clause")
        tokens[at:last[length - 1] + 1] = source.lex(place)


def used(source, traits):
    """Drops the imports that only what was deleted named, adds those of the prelude, and writes them."""
    tokens = source.tokens
    words = source.words()
    called = {tokens[at].text for at in range(len(tokens))
              if tokens[at].kind == "word" and (source.is_at(at, -1, ".") or source.is_at(at, -1, "::"))}
    found = [token for token in tokens if token.kind == "import"]
    for token in found:
        kept = [path for path in token.paths if token.visibility or (name := name_of(path)) in words or name in ("_", "*")
                or name in rewrites.TRAITS or traits.get(name, set()) & called]
        COUNT["imports that nothing names any more"] += len(token.paths) - len(kept)
        token.paths = kept
    have = {name_of(path) for token in found for path in token.paths}
    for name, path in rewrites.PRELUDE.items():
        if name not in have and any(
                token.text == name and token.kind == "word" and not source.is_at(at, -1, "::") and not source.is_at(at, -1, ".")
                for at, token in enumerate(tokens)):
            COUNT[f"imports of `{name}`"] += 1
            add_import(source, path)
    for at in range(len(tokens) - 1, -1, -1):
        if tokens[at].kind == "import":
            if tokens[at].paths:
                tokens[at].text = written(tokens[at].paths, tokens[at].visibility)
            else:
                source.delete(at, at + 1)


def name_of(path):
    """The name that an import brings."""
    parts = path.split(" as ")[-1].split("::")
    return parts[-2] if parts[-1] == "self" else parts[-1]


def add_import(source, path):
    """Adds an import to that of its module, or in front of the others, or of the first item."""
    module = path.rpartition("::")[0]
    tokens = source.tokens
    private = [token for token in tokens if token.kind == "import" and not token.visibility and token.paths]
    for token in private:
        if token.paths[0].rpartition("::")[0] == module:
            token.paths.append(path)
            return
    if private:
        private[0].paths.insert(0, path)
        return
    at = next(at for at, token in enumerate(tokens) if token.kind != "space" and not token.text.startswith("//!"))
    token = Token("import", "", 0)
    token.paths, token.visibility = [path], ""
    tokens[at:at] = [token, Token("space", "\n\n", 0)]


def parameters(source):
    """Puts `_` before the parameters that nothing names any more."""
    tokens = source.tokens
    for at in range(len(tokens) - 1, -1, -1):
        if tokens[at].text != "fn" or tokens[at].kind != "word" or tokens[source.near(at, 1)].kind != "word":
            continue
        start = source.find(at, "(")
        end = source.close(start)
        body = source.find(end, "{", ";")
        if tokens[body].text == ";":
            continue
        inner = Source(source.path, "")
        inner.tokens = tokens[body:source.close(body)]
        words = inner.words()
        for name in (tokens[here] for here in range(start + 1, end)
                     if source.is_at(here, 1, ":") and (source.is_at(here, -1, "(") or source.is_at(here, -1, ","))):
            if name.kind == "word" and not name.text.startswith("_") and name.text not in words:
                COUNT["parameters that nothing names any more"] += 1
                name.text = "_" + name.text


def fences(source):
    """Marks examples in doc comments as text: they show the contracts, and are no Rust."""
    is_open = False
    for token in source.tokens:
        if token.kind == "comment" and token.text[3:].strip().startswith("```"):
            if not is_open and token.text.endswith("```"):
                COUNT["examples"] += 1
                token.text += "text"
            is_open = not is_open


def read(folder):
    """The texts of the crates in a folder, by their paths in the repository."""
    files = sorted(folder.glob("*/src/**/*.rt"))
    for file in files:
        if (crate := file.relative_to(folder).parts[0]) not in rewrites.LIBRARY + rewrites.PROGRAM:
            raise Refused(f"crates/{crate}: a crate of which rewrites.py does not say whether it is of the library or of the program")
    return {f"crates/{file.relative_to(folder)}": file.read_text() for file in files}


class Crates:
    """The sources of all crates, given as texts by path. Callers in `uses.rt` serve proofs alone, and so does what has no code."""

    def __init__(self, texts):
        self.sources = {path: Source(path, text) for path, text in texts.items() if not path.endswith("/uses.rt")}
        self.laws = {name for source in self.sources.values() for name in laws_of(source)}
        self.traits, self.macros, self.structs_for_c = {}, set(), set()
        for source in self.sources.values():
            for name, methods in forms.traits_of(source):
                self.traits.setdefault(name, set()).update(methods)
            self.macros |= forms.macros_of(source)
            self.structs_for_c.update(forms.structs_for_c(source))
        for source in self.sources.values():
            items(source, self.laws)
        self.sources = {path: source for path, source in self.sources.items() if source.has_items()}
        self.gone = set(texts) - set(self.sources)
        self.exports, self.structs = [], []
        self.applied = [0] * len(rewrites.REWRITES)

    def erased(self, path):
        """The Rust of a source."""
        source, crate = self.sources[path], path.split("/")[1]
        modules(source, self.gone)
        attributes(source)
        forms.check(source, self)
        bounds(source)
        labels(source)
        if crate == "capi":
            found, structs = exports.read(source)
            self.exports += found
            self.structs += structs
        for index, (where, what, by, _) in enumerate(rewrites.REWRITES):
            if path.startswith(where):
                self.applied[index] += source.replace(what, by)
        imports(source, crate, self.laws)
        paths(source, crate)
        if crate != "aeadkit":
            source.replace("pub(crate)", f"pub(in {home(crate, crate)})")
        used(source, self.traits)
        parameters(source)
        fences(source)
        text = source.text()
        if path == rewrites.MAIN:
            text = re.sub(r"^(?!//)", rewrites.allowed(rewrites.PROGRAM_LINTS) + "\n", text, count=1, flags=re.M)
        return f"// Made from {path} by tools/erase: not to be edited.\n" + text

    def check_rewrites(self):
        """Refuses a rewrite that nothing needs any more."""
        matched = {(where, why) for count, (where, _, _, why) in zip(self.applied, rewrites.REWRITES) if count}
        for count, (where, what, _, why) in zip(self.applied, rewrites.REWRITES):
            COUNT[f"rewrites of `{what}`"] += count
            if (where, why) not in matched:
                raise Refused(f"rewrites.py: nothing in {where or 'the crates'} matches `{what}` any more")


def place_of(path):
    """Where the Rust of a source is written."""
    _, crate, _, *names = path.split("/")
    name = "/".join(names).removesuffix(".rt") + ".rs"
    if crate in rewrites.LIBRARY:
        return f"{PROVED}/{crate}/" + ("mod.rs" if name == "lib.rs" else name)
    if crate == "aeadkit":
        return f"{PROGRAM}/" + ("tests/mod.rs" if name == "tests.rs" else name)
    return f"{PROGRAM}/{crate}/" + ("mod.rs" if name == "lib.rs" else name)


def write(files, to):
    """Writes texts below a folder, as rustfmt has them."""
    for path, text in files.items():
        (to / path).parent.mkdir(parents=True, exist_ok=True)
        (to / path).write_text(text)
    command = ["rustfmt", "--edition", "2024", "--config-path", TOP / "packages/rust/rustfmt.toml", "--config", "skip_children=true"]
    try:
        done = subprocess.run([*command, *(to / path for path in files)], capture_output=True, text=True)
    except FileNotFoundError:
        raise Refused("rustfmt is missing: `rustup component add rustfmt` installs it") from None
    if done.returncode:
        raise Refused("what is left is no Rust:\n" + done.stderr.replace(f"{to}/", ""))


def generate(texts):
    """Everything that is made from the crates: texts by path."""
    crates = Crates(texts)
    files = {place_of(path): crates.erased(path) for path in crates.sources}
    crates.check_rewrites()
    files[f"{PROVED}/mod.rs"] = rewrites.MODULE.format(
        lints=rewrites.allowed(rewrites.LINTS), modules="\n".join(f"pub mod {crate};" for crate in sorted(rewrites.LIBRARY)))
    files[EXPORTS] = exports.write(crates.exports, crates.structs)
    return files


def stale(made, to, files):
    """The paths below `to` whose texts are not those below `made`, or which nothing makes any more."""
    owned = [to / PROVED, *(to / PROGRAM / name for name in ("vectors", "command", "tests"))]
    there = {str(file.relative_to(to)) for base in owned for file in base.rglob("*.rs")}
    return [path for path in sorted(there | set(files)) if path not in files or not (to / path).exists()
            or (to / path).read_bytes() != (made / path).read_bytes()]


def main():
    options = argparse.ArgumentParser(description=__doc__, formatter_class=argparse.RawDescriptionHelpFormatter)
    options.add_argument("--check", action="store_true")
    options.add_argument("--count", action="store_true")
    options.add_argument("--crates", type=pathlib.Path, default=TOP / "crates")
    options.add_argument("--to", type=pathlib.Path, default=TOP)
    options = options.parse_args()
    files = generate(read(options.crates))
    if options.count:
        for what, count in sorted(COUNT.items()):
            print(f"{count:6} {what}")
        return
    with tempfile.TemporaryDirectory() as made:
        write(files, pathlib.Path(made))
        changed = stale(pathlib.Path(made), options.to, files)
        if options.check and changed:
            sys.exit("Not what tools/erase/erase.py makes of the crates: " + ", ".join(changed))
        for path in changed:
            (options.to / path).parent.mkdir(parents=True, exist_ok=True)
            if path in files:
                (options.to / path).write_bytes((pathlib.Path(made) / path).read_bytes())
            else:
                (options.to / path).unlink()
    print(f"{len(files)} files, {len(changed)} of them new")


if __name__ == "__main__":
    try:
        main()
    except Refused as fault:
        sys.exit(f"erase: {fault}")
