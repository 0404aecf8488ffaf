# SPDX-License-Identifier: MIT OR Apache-2.0
"""The extension module, over the dispatcher as `make -C c` builds it: the file that NTWIN_LIBRARY names, else c/out/libntwin.a of the repository,
else libntwin.a as pkg-config finds it (`make install`, or the package libntwin-dev of a release)."""
import os
import pathlib
import subprocess

from setuptools import Extension, setup

HERE = pathlib.Path(__file__).resolve().parent
TOP = HERE.parent
# (In an archive of sources the header and the version lie beside this file.)
IS_ALONE = (HERE / "include" / "nt.h").is_file()
VERSION = HERE / "VERSION" if IS_ALONE else TOP / "VERSION"
HEADERS = HERE / "include" if IS_ALONE else TOP / "c"


def by_pkg_config():
    try:
        said = subprocess.run(["pkg-config", "--variable=libdir", "ntwin"], capture_output=True, text=True, check=False).stdout.strip()
    except OSError:
        return None
    return pathlib.Path(said, "libntwin.a") if said else None


def library():
    named = os.environ.get("NTWIN_LIBRARY")
    found = [pathlib.Path(named)] if named else [TOP / "c" / "out" / "libntwin.a"] * (not IS_ALONE) + [by_pkg_config()]
    for it in found:
        if it and it.is_file():
            return it
    raise SystemExit(
        "kawhopune: there is no libntwin.a: `make -C c` builds it in the repository, the package libntwin-dev of a release has it, "
        "and NTWIN_LIBRARY can name it"
    )


setup(
    version=VERSION.read_text(encoding="ascii").strip(),
    ext_modules=[
        Extension(
            "kawhopune._native",
            ["src/kawhopune/_native.c"],
            depends=["src/kawhopune/_pages.h", str(HEADERS / "nt.h"), str(library())],
            include_dirs=[str(HEADERS)],
            extra_compile_args=["-std=c11", "-fvisibility=hidden", "-g0"],
            extra_link_args=[str(library()), "-Wl,--exclude-libs,ALL", "-Wl,--strip-all"],
            py_limited_api=True,
        )
    ],
    options={"bdist_wheel": {"py_limited_api": "cp310"}},
)
