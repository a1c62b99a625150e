"""The help, the README and the examples; and the wheel."""

import doctest
import os
import pathlib
import re
import shutil
import subprocess
import sys
import tempfile
import unittest
import zipfile
from importlib.util import find_spec

import aeadkit

FOLDER = pathlib.Path(__file__).resolve().parents[1]


def run(*words, folder=None, data=b"", **environment):
    """A run of Python that finds the package where this one was found, or in the folder."""
    path = folder or pathlib.Path(aeadkit.__file__).parents[1]
    variables = {**os.environ, "PYTHONPATH": str(path), "PYTHONDONTWRITEBYTECODE": "1", **environment}
    return subprocess.run([sys.executable, *map(str, words)], env=variables, input=data, stdout=subprocess.PIPE,
                          stderr=subprocess.PIPE, cwd=folder)


def left_out(reason):
    """Shows the reason, which unittest hides unless it is verbose."""
    print(f"left out: {reason}", file=sys.stderr)
    return unittest.SkipTest(reason)


class Documents(unittest.TestCase):
    def test_the_help(self):
        result = doctest.testmod(aeadkit)
        self.assertEqual((result.failed, result.attempted > 4), (0, True))

    def test_the_readme(self):
        program = re.search("```python\n(.*?)```", (FOLDER / "README.md").read_text(), re.DOTALL).group(1)
        made = run("-c", program)
        self.assertEqual((made.stdout, made.stderr), (b"b'the text'\nnot the bytes that were sealed as record 2\n", b""))

    def test_keys(self):
        made = run(FOLDER / "examples/keys.py")
        self.assertEqual((made.stdout.count(b"refused: "), made.stderr, made.returncode), (6, b"", 0))

    def test_segments(self):
        with tempfile.TemporaryDirectory() as folder:
            key = pathlib.Path(folder, "key")
            key.write_bytes(os.urandom(32))

            def segments(word, data, label="label"):
                return run(FOLDER / "examples/segments.py", word, key, label, data=data)

            for size in (0, 1, 1 << 20, (1 << 20) + 1):
                text = bytes(range(256)) * (size // 256) + bytes(size % 256)
                sealed = segments("seal", text).stdout
                opened = segments("open", sealed)
                self.assertTrue(opened.returncode == 0 and opened.stdout == text, size)
            # cut at a segment's end, longer, changed in the head and in a segment, and with another label
            cut = sealed[: 48 + (1 << 20) + 16]
            wrong = [sealed[:at] + bytes([sealed[at] ^ 1]) + sealed[at + 1 :] for at in (0, 9, 99)]
            for words in ((cut,), (cut[:-1],), (sealed + sealed,), (b"",), *((data,) for data in wrong), (sealed, "other")):
                made = segments("open", *words)
                self.assertEqual((made.returncode, made.stderr[:13]), (1, b"segments.py: "))
                self.assertTrue(text.startswith(made.stdout) and made.stdout != text)
            sample = FOLDER.parent / "c/examples/sample.segments"  # which backup.c opens too
            key.write_bytes(b"a key of 32 bytes for the sample")
            self.assertEqual(segments("open", sample.read_bytes(), "sample").stdout[:21], b"The parcel leaves at ")
            self.assertIn(b"LABEL is longer than 200 bytes", segments("seal", b"text", "l" * 201).stderr)
            key.write_bytes(bytes(16))
            self.assertIn(b"KEYFILE is not 32 bytes long", segments("seal", b"text").stderr)


class Build(unittest.TestCase):
    def setUp(self):
        if not find_spec("setuptools"):
            raise left_out("the wheel: there is no setuptools")
        folder = tempfile.TemporaryDirectory()
        self.addCleanup(folder.cleanup)
        self.folder = pathlib.Path(folder.name)

    def wheel(self, name, **environment):
        """A wheel that is built in a copy of this folder."""
        copy = self.folder / name
        shutil.copytree(FOLDER, copy, ignore=shutil.ignore_patterns("build", "*.egg-info", "*.so"))
        made = run("setup.py", "-q", "bdist_wheel", folder=copy, SOURCE_DATE_EPOCH="400000000", **environment)
        return made, list(copy.glob("dist/*.whl"))

    def test_the_wheel(self):
        if not (find_spec("wheel") or find_spec("setuptools.command.bdist_wheel")) or "AEADKIT_PREFIX" not in os.environ:
            raise left_out("the wheel: there is no module wheel, or AEADKIT_PREFIX is not set")
        (made, [file]), (_, [again]) = self.wheel("one"), self.wheel("two")
        version, site = aeadkit.__version__, self.folder / "site"
        self.assertRegex(file.name, rf"^aeadkit-{re.escape(version)}-cp311-abi3-linux_", made.stderr)
        self.assertEqual(file.read_bytes(), again.read_bytes())
        with zipfile.ZipFile(file) as wheel:
            wheel.extractall(site)
            files = {name for name in wheel.namelist() if name.startswith("aeadkit/")}
        modules = {name for name in files if name.endswith(".abi3.so")}
        self.assertLessEqual(modules, {"aeadkit/_library.abi3.so", "aeadkit/_library_v3.abi3.so"})
        self.assertEqual(files - modules, {f"aeadkit/{name}" for name in ("__init__.py", "aead.py", "keywrap.py", "py.typed")})
        for name in modules:  # pip takes a wheel for manylinux_2_17 on every system that has this glibc or a newer one
            symbols = re.findall(rb"\0GLIBC_2\.(\d+)", (site / name).read_bytes())
            self.assertTrue(symbols and max(map(int, symbols)) <= 17, symbols)
        head, _, readme = (site / f"aeadkit-{version}.dist-info/METADATA").read_text().partition("\n\n")
        self.assertIn(f"\nVersion: {version}\n", head)
        self.assertEqual(readme, (FOLDER / "README.md").read_text())
        used = run("-c", "import aeadkit; print(aeadkit._lib.__file__)", folder=site)
        self.assertIn(f"{site}/aeadkit/_library", used.stdout.decode())

    def test_without_a_library(self):
        for number, prefix in enumerate(("", "/nowhere")):
            made, wheels = self.wheel(str(number), AEADKIT_PREFIX=prefix)
            self.assertEqual((made.returncode, wheels), (1, []))
            self.assertRegex(made.stderr.decode(), "^aeadkit: .*AEADKIT_PREFIX.*\n$")


class Version(unittest.TestCase):
    def test_the_version(self):
        self.assertRegex(aeadkit.__version__, r"^3\.[0-9]+\.[0-9]+$")
