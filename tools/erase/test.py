#!/usr/bin/env python3
"""Tests the eraser: what comes out of the forms in tests/erased.txt, and that each form in tests/refused.txt is refused. A case
begins with a line `---- PATH: title`; below a line `====` stands what has to come out, or the refusal."""
import pathlib, re, sys, tempfile

import erase
import exports
from source import Refused

HERE = pathlib.Path(__file__).parent


def cases(name):
    for case in re.split(r"^---- ", (HERE / "tests" / name).read_text(), flags=re.M)[1:]:
        head, _, body = case.partition("\n")
        path, _, title = head.partition(": ")
        given, _, due = body.partition("====\n")
        yield path, title, given, due


def outcome(path, given):
    """What the eraser makes of one source: the text and, of `capi`, the exports below their head."""
    crates = erase.Crates({path: given})
    text = crates.erased(path).partition("\n")[2]
    if crates.exports:
        text += "\n" + exports.write(crates.exports, crates.structs).rpartition("isize::MAX as usize)) }\n}\n\n")[2]
    return text


def main():
    wrong, count = [], 0
    with tempfile.TemporaryDirectory() as folder:
        folder = pathlib.Path(folder)
        erased = list(cases("erased.txt"))
        erase.write({f"{at}.rs": outcome(path, given) for at, (path, _, given, _) in enumerate(erased)}, folder)
        for at, (_, title, _, due) in enumerate(erased):
            count += 1
            if (came := (folder / f"{at}.rs").read_text()) != due:
                wrong.append(f"{title}: what came out is\n{came}")
        for path, title, given, due in cases("refused.txt"):
            count += 1
            try:
                erase.write({"it.rs": outcome(path, given)}, folder)
                wrong.append(f"{title}: is not refused")
            except Refused as fault:
                if not str(fault).startswith(due.strip()):
                    wrong.append(f"{title}: is refused with\n{fault}")
        try:
            erase.Crates({}).check_rewrites()
            wrong.append("a rewrite that matches nothing is not refused")
        except Refused:
            count += 1
        (folder / "crates/new/src").mkdir(parents=True)
        (folder / "crates/new/src/lib.rt").touch()
        try:
            erase.read(folder / "crates")
            wrong.append("a new crate is not refused")
        except Refused:
            count += 1
        names = [f"{erase.PROVED}/{name}.rs" for name in ("same", "changed", "missing", "extra")]
        for name in names[:3]:
            erase.write({name: "fn f() {}"}, folder / "made")
        for name, text in zip((names[0], names[1], names[3]), ("fn f() {}", "fn g() {}", "")):
            erase.write({name: text}, folder / "there")
        count += 1
        if erase.stale(folder / "made", folder / "there", names[:3]) != sorted(names[1:]):
            wrong.append("stale files are not found")
    for fault in wrong:
        print(fault, file=sys.stderr)
    print(f"{count} cases of the eraser, {len(wrong)} wrong")
    sys.exit(1 if wrong else 0)


if __name__ == "__main__":
    main()
