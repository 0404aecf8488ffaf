"""The package for Python: a wheel that needs nothing else, named by the glibc from which on it runs, and its sources."""
import glob
import gzip
import os
import shutil
import subprocess
import sys
import tarfile

import oldest
from archive import below, set_times
from binaries import binaries, newest_glibc

TOP = os.path.dirname(os.path.dirname(os.path.realpath(__file__)))
PARTS = ("README.md", "pyproject.toml", "setup.py", "MANIFEST.in", "src")
# What a Python needs to build a wheel; the system's own is tried where the first one lacks it.
ASKED = """import importlib.util, os, sys, sysconfig
has = [importlib.util.find_spec(it) for it in ("setuptools", "wheel")]
sys.exit(not all(has) or not os.path.isfile(sysconfig.get_paths()["include"] + "/Python.h"))"""


def python():
    """A Python that can build a wheel, or None."""
    there = filter(os.path.exists, (sys.executable, "/usr/bin/python3"))
    return next((it for it in there if subprocess.run([it, "-c", ASKED], check=False).returncode == 0), None)


def setup(builder, folder, time, *words, **more):
    environment = {**os.environ, "SOURCE_DATE_EPOCH": str(time), "PYTHONDONTWRITEBYTECODE": "1", **more}
    how = {"cwd": folder, "env": environment, "stdin": subprocess.DEVNULL, "stdout": subprocess.PIPE, "stderr": subprocess.STDOUT, "text": True}
    done = subprocess.run([builder, "setup.py", "-q", *words], check=False, **how)
    if done.returncode:
        raise subprocess.CalledProcessError(done.returncode, f"setup.py {words[0]}: {done.stdout}")


def lay_out(stage, folder, version, time):
    """Lays out the sources as who builds them elsewhere has them: with the header, the version and the licences."""
    os.makedirs(f"{folder}/include")
    for it in PARTS:
        path = f"{TOP}/python/{it}"
        if os.path.isdir(path):
            shutil.copytree(path, f"{folder}/{it}", ignore=shutil.ignore_patterns("__pycache__", "*.egg-info", "*.so"))
        else:
            shutil.copy(path, folder)
    shutil.copy(f"{stage}/include/ntwin/nt.h", f"{folder}/include")
    for it in ("LICENSE-MIT", "LICENSE-APACHE"):
        shutil.copy(f"{TOP}/{it}", folder)
    with open(f"{folder}/VERSION", "w", encoding="ascii") as file:
        file.write(version + "\n")
    set_times(folder, time)


def packed_again(path, time):
    """Writes the archive of sources again, so that its bytes depend on what is in it alone."""
    with tarfile.open(path) as old:
        members = sorted(((it, old.extractfile(it) if it.isfile() else None) for it in old.getmembers()), key=lambda pair: pair[0].name)
        with open(f"{path}.new", "wb") as file, gzip.GzipFile("", "wb", 9, file, time) as zipped, tarfile.open(fileobj=zipped, mode="w") as new:
            for it, text in members:
                it.uid = it.gid = 0
                it.uname = it.gname = "root"
                it.mtime, it.pax_headers = time, {}
                new.addfile(it, text)
    os.replace(f"{path}.new", path)


def wheels(stage, room, to, version, time, stand_ins):
    """Makes the wheel and the archive of sources; answers their names, or none where no Python here can build them."""
    builder = python()
    if not builder:
        print("release/make: no wheel: Python lacks setuptools, wheel or Python.h", file=sys.stderr)
        return []
    folder = f"{room}/package"
    lay_out(stage, folder, version.replace("-UNPROVED", "+unproved"), time)
    library = {"NTWIN_LIBRARY": f"{stage}/lib/libntwin.a", "LDFLAGS": stand_ins}
    build = ["build", f"--build-base={room}/base", f"--build-lib={room}/built"]
    setup(builder, folder, time, *build, **library)
    oldest.hold(binaries(f"{room}/built"), others=("Py", "_Py"))
    tag = f"manylinux_{newest_glibc(f'{room}/built').replace('.', '_')}_x86_64"
    set_times(f"{room}/built", time)
    words = [*build, "bdist_wheel", f"--plat-name={tag}", f"--bdist-dir={room}/wheel", f"--dist-dir={room}/made"]
    setup(builder, folder, time, *words, **library)
    setup(builder, folder, time, "sdist", "--formats=gztar", f"--dist-dir={room}/made", **library)
    packed_again(*glob.glob(f"{room}/made/*.tar.gz"), time)
    for it in below(f"{room}/made"):
        shutil.copy(f"{room}/made/{it}", to)
    return below(f"{room}/made")
