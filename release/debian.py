"""Debian packages of what was staged for a release, by dpkg-deb."""
import gzip
import os
import re
import shutil
import subprocess
import time as clock

from archive import below, set_times
from binaries import binaries, libraries

MAINTAINER = "Kawhopune maintainers <maintainers@users.noreply.kawhopune.example>"
MULTIARCH = "x86_64-linux-gnu"
OF_LIBRARY = {it: "libc6" for it in ("libc.so.6", "libm.so.6", "libpthread.so.0", "libdl.so.2", "ld-linux-x86-64.so.2")} | {"libgcc_s.so.1": "libgcc-s1"}
HERE = os.path.dirname(os.path.realpath(__file__))

# Each package: what of the stage it has, and what its record says.
PARTS = {
    "libntwin1": {"lib/libntwin.so.1": f"usr/lib/{MULTIARCH}/libntwin.so.1"},
    "libntwin-dev": {
        "include": "usr/include",
        "lib/libntwin.so": f"usr/lib/{MULTIARCH}/libntwin.so",
        "lib/libntwin.a": f"usr/lib/{MULTIARCH}/libntwin.a",
        "lib/pkgconfig": f"usr/lib/{MULTIARCH}/pkgconfig",
        "lib/cmake": f"usr/lib/{MULTIARCH}/cmake",
        "share/man/man3": "usr/share/man/man3",
        "share/ntwin": "usr/share/ntwin",
    },
    "ntwin-tools": {"bin": "usr/bin", "libexec": "usr/libexec", "share/man/man1": "usr/share/man/man1"},
}
SECTIONS = {"libntwin1": "libs", "libntwin-dev": "libdevel", "ntwin-tools": "devel"}
ABOUT = {
    "libntwin1": (
        "waitable objects of Windows NT for C programs",
        "Events, semaphores, mutexes, waitable timers, waits and APCs of Win32,\n for the threads of one process.",
    ),
    "libntwin-dev": (
        "waitable objects of Windows NT - headers and static library",
        "The headers nt.h, nt.hpp and ntwin.h, those of Windows, and the libraries.",
    ),
    "ntwin-tools": ("scripts of calls on Windows NT waitable objects", "ntrun plays scripts of calls, and ntlook says why their threads wait."),
}
COPYRIGHT = """Format: https://www.debian.org/doc/packaging-manuals/copyright-format/1.0/
Upstream-Name: ntwin

Files: *
Copyright: the Kawhopune developers
License: MIT or Apache-2.0

License: Apache-2.0
 On Debian systems the whole text is in /usr/share/common-licenses/Apache-2.0.

License: MIT
"""


def write(path, text):
    os.makedirs(os.path.dirname(path), exist_ok=True)
    with open(path, "w", encoding="utf-8") as file:
        file.write(text)


def pack(path, text):
    """Writes the text compressed, with no name and no time in it."""
    os.makedirs(os.path.dirname(path), exist_ok=True)
    with open(path, "wb") as file:
        file.write(gzip.compress(text.encode(), 9, mtime=0))


def put_parts(stage, root, name):
    for part, to in PARTS[name].items():
        os.makedirs(os.path.dirname(f"{root}/{to}"), exist_ok=True)
        if os.path.isdir(f"{stage}/{part}"):
            shutil.copytree(f"{stage}/{part}", f"{root}/{to}", symlinks=True)
        else:
            shutil.copy(f"{stage}/{part}", f"{root}/{to}", follow_symlinks=False)
    for it in below(root):
        path = f"{root}/{it}"
        if re.fullmatch(r"usr/share/man/man\d/.*\.\d", it):
            with open(path, encoding="utf-8") as file:
                pack(f"{path}.gz", file.read())
            os.remove(path)


def fit_development(root):
    """Debian has libraries one folder deeper."""
    for name, changes in {
        f"usr/lib/{MULTIARCH}/pkgconfig/ntwin.pc": {"${pcfiledir}/../..": "${pcfiledir}/../../..", "${prefix}/lib": "${prefix}/lib/" + MULTIARCH},
        f"usr/lib/{MULTIARCH}/cmake/ntwin/ntwinConfig.cmake": {"/../../..": "/../../../..", "_prefix}/lib/": "_prefix}/lib/" + MULTIARCH + "/"},
    }.items():
        with open(f"{root}/{name}", encoding="utf-8") as file:
            text = file.read()
        for found, wanted in changes.items():
            if found not in text:
                raise ValueError(f"{name} has no {found}")
            text = text.replace(found, wanted)
        write(f"{root}/{name}", text)


def depends(name, root, version, glibc):
    """The packages that one needs, by the libraries that its binaries need; ntwin-explore is a script."""
    found = {OF_LIBRARY[it] for it in libraries(binaries(root))}
    words = [f"libc6 (>= {glibc})" if it == "libc6" else it for it in sorted(found)] + ["python3"] * (name == "ntwin-tools")
    return ", ".join(words if name != "libntwin-dev" else [f"libntwin1 (= {version})", "libc6-dev"])


def put_record(name, root, version, glibc):
    """Writes what dpkg reads of the package: DEBIAN/control and its like."""
    size = sum(os.path.getsize(f"{root}/{it}") for it in below(root) if os.path.isfile(f"{root}/{it}")) // 1024 + 1
    short, long = ABOUT[name]
    proved = "UNPROVED: its dispatcher was built without proofs, for tests alone." if "UNPROVED" in version else "Its dispatcher is proved."
    same = "" if name == "ntwin-tools" else "Multi-Arch: same\n"
    write(
        f"{root}/DEBIAN/control",
        f"Package: {name}\nSource: ntwin\nVersion: {version}\nArchitecture: amd64\nMaintainer: {MAINTAINER}\nInstalled-Size: {size}\n"
        f"Depends: {depends(name, root, version, glibc)}\nSection: {SECTIONS[name]}\nPriority: optional\n{same}"
        f"Description: {short}\n {long}\n .\n {proved}\n",
    )
    found = [it for it in below(root) if not it.startswith("DEBIAN/")]
    files = [it for it in found if os.path.isfile(f"{root}/{it}") and not os.path.islink(f"{root}/{it}")]
    write(f"{root}/DEBIAN/md5sums", "".join(f"{md5_of(f'{root}/{it}')}  {it}\n" for it in files))
    if name == "libntwin1":
        write(f"{root}/DEBIAN/triggers", "activate-noawait ldconfig\n")
        write(f"{root}/DEBIAN/shlibs", "libntwin 1 libntwin1\n")
        with open(f"{HERE}/../c/ntwin.abi", encoding="ascii") as file:
            rows = [it.split() for it in file if it.startswith(("function ", "object "))]
        first = version.partition("-")[0].partition("~")[0]
        symbols = "".join(f" {it[1]}@{it[2]} {first}\n" for it in rows)
        write(f"{root}/DEBIAN/symbols", f"libntwin.so.1 libntwin1 #MINVER#\n NTWIN_1.0@NTWIN_1.0 {first}\n{symbols}")


def md5_of(path):
    return subprocess.run(["md5sum", path], stdout=subprocess.PIPE, text=True, check=True).stdout.split()[0]


def put_pages(name, root, stage, version, time):
    """Writes the package's licence, its changes and, of the library, what is proved."""
    pages = f"{root}/usr/share/doc/{name}"
    with open(f"{stage}/share/doc/ntwin/LICENSE-MIT", encoding="utf-8") as file:
        terms = "".join(f" {it.strip() or '.'}\n" for it in file.read().strip().splitlines())
    write(f"{pages}/copyright", COPYRIGHT + terms)
    at = clock.strftime("%a, %d %b %Y %H:%M:%S +0000", clock.gmtime(time))
    changes = f"ntwin ({version}) unstable; urgency=medium\n\n  * As CHANGELOG.md of ntwin says.\n\n -- {MAINTAINER}  {at}\n"
    pack(f"{pages}/changelog.Debian.gz", changes)
    wanted = {"libntwin-dev": ("README", "SHA256SUMS.sources", "PROVED.md", "WIN32.md", "PORTING.md"), "ntwin-tools": ("SCRIPTS.md", "HANGS.md")}
    for it in wanted.get(name, ()):
        shutil.copy(f"{stage}/share/doc/ntwin/{it}", pages)


def packages(stage, room, to, version, glibc, time):
    """Makes the packages; answers the names of their files."""
    made, version = [], version.replace("-UNPROVED", "~UNPROVED") + "-1"
    for name in PARTS:
        root = f"{room}/{name}"
        put_parts(stage, root, name)
        if name == "libntwin-dev":
            fit_development(root)
        put_pages(name, root, stage, version, time)
        put_record(name, root, version, glibc)
        set_times(root, time)
        made.append(f"{name}_{version}_amd64.deb")
        environment = {**os.environ, "SOURCE_DATE_EPOCH": str(time)}
        words = ["dpkg-deb", "--root-owner-group", "-Zxz", "--threads-max=1", "--build", root, f"{to}/{made[-1]}"]
        subprocess.run(words, env=environment, stdout=subprocess.DEVNULL, check=True)
    return made
