"""The extension: aeadkit/_library.c with each build of the library, in the prefix that AEADKIT_PREFIX names or as cargo compiles it."""

import os
import pathlib
import platform
import re
import subprocess
import sys
import tempfile

from setuptools import Extension, setup
from setuptools.command.build_ext import build_ext

HERE = pathlib.Path(__file__).resolve().parent
ARCHIVES = {"_library": "lib/libaeadkit.a", "_library_v3": "lib/x86-64-v3/libaeadkit.a"}  # the second is for AVX2

given = os.environ.get("AEADKIT_PREFIX")
# the sources of the library: those of a source distribution, or the repository
sources = next((folder for folder in (HERE / "library", *HERE.parents[1:2]) if (folder / "tools/build/lib.sh").is_file()), None)
if given:
    prefix = pathlib.Path(given)
    for file in ("include/aeadkit.h", "lib/libaeadkit.a"):
        if not (prefix / file).is_file():
            sys.exit(f"aeadkit: there is no {prefix / file}: build the library into AEADKIT_PREFIX first")
    version = re.search('AEADKIT_VERSION "(.*)"', (prefix / "include/aeadkit.h").read_text())
    names = [name for name, archive in ARCHIVES.items() if (prefix / archive).is_file()]
elif sources:
    version = re.search('VERSION: &str = "(.*)"', (sources / "crates/command/src/version.rt").read_text())
    names = list(ARCHIVES) if platform.machine() == "x86_64" else ["_library"]
else:
    sys.exit("aeadkit: the sources of the library are not here: set AEADKIT_PREFIX to where the library is")


def compiled(folder):
    """The prefix in the folder into which cargo and cc have just built the library."""
    builds = "default avx2" if platform.machine() == "x86_64" else platform.machine()
    environment = {**os.environ, "FROM": "rust", "BUILDS": builds, "BUILD": os.environ.get("AEADKIT_BUILD") or folder}
    if subprocess.run([sources / "tools/build/lib.sh", "library", f"{folder}/prefix"], env=environment).returncode:
        sys.exit("aeadkit: the library is not built: set AEADKIT_PREFIX to where it is, or see above what cargo needs")
    return pathlib.Path(folder, "prefix")


class Build(build_ext):
    def run(self):
        with tempfile.TemporaryDirectory() as folder:
            prefix = pathlib.Path(given) if given else compiled(folder)
            for extension in self.extensions:
                extension.include_dirs = [str(prefix / "include")]
                extension.extra_objects = [str(prefix / ARCHIVES[extension.name.rpartition(".")[2]])]
            super().run()


setup(
    packages=["aeadkit"], package_data={"aeadkit": ["py.typed"]}, include_package_data=False, version=version.group(1),
    ext_modules=[Extension(
        f"aeadkit.{name}", ["aeadkit/_library.c"], extra_link_args=["-Wl,-s"], py_limited_api=True,
        define_macros=[("INIT", f"PyInit_{name}"), ("Py_LIMITED_API", "0x030b0000")] + [("WITH_V3", None)] * (len(names) > 1))
        for name in names],
    options={"bdist_wheel": {"py_limited_api": "cp311"}, "build_ext": {"force": True}},  # the prefix may be another one
    cmdclass={"build_ext": Build},
)
