"""A release in a folder that has Debian 11's C library and nothing else: glibc 2.31, as release/debian_11 lays it down."""
import glob
import os
import re
import shutil
import subprocess

import oldest
from binaries import said_of

HOME = os.environ.get("XDG_CACHE_HOME") or os.path.expanduser("~/.cache")
DEBIAN_11 = f"{HOME}/kawhopune/debian_11"
LIBRARIES = "lib/x86_64-linux-gnu"
INSIDE = ["unshare", "--user", "--map-root-user", "--mount", "sh", "-c", 'mount --rbind /proc "$0/proc" && exec chroot "$0" "$@"']
# A symbol that a library defines as the one that is linked with, as `objdump -T` has it: its kind, size, version and name.
DEFINED = re.compile(r"(?m)^[0-9a-f]+ .{6}(.) (?!\*UND\*)\S+\t([0-9a-f]+) +(GLIBC_[\w.]+) +(\w+)$")
# Each kind of program, with how it is linked; before 2.34 what looks for libraries is in one of its own.
KINDS = {"shared": ["-lntwin", "-lpthread"], "static": ["-l:libntwin.a", "-lpthread", "-ldl"]}


def unlike(root):
    """Each row of the list of names that its library does not have so."""
    found = {}
    for library in {it[0] for it in oldest.names().values()}:
        for kind, size, version, name in DEFINED.findall(said_of(f"{root}/{LIBRARIES}/{library}", "-T")):
            found[name, library] = (version, int(size, 16) if kind == "O" else 0)
    return [name for name, (library, *its) in oldest.names().items() if found.get((name, library)) != tuple(its)]


def compile_with(root, prefix, source, to, kind):
    """The words that compile a program of C as on Debian 11."""
    libraries = [f"{root}/usr/{LIBRARIES}", f"{root}/{LIBRARIES}"]
    words = ["gcc", "-O2", f"--sysroot={root}", f"-B{libraries[0]}", *(f"-L{it}" for it in libraries), "-o", to, source]
    return [*words, "-isystem", f"{prefix}/include/ntwin", "-isystem", f"{prefix}/include/ntwin/win", f"-L{prefix}/lib", *KINDS[kind]]


def ran(words, **environment):
    how = {"stdin": subprocess.DEVNULL, "stdout": subprocess.PIPE, "stderr": subprocess.STDOUT, "text": True, "errors": "replace"}
    done = subprocess.run(words, env=environment, check=False, **how)
    return done.returncode, done.stdout


class Oldest:
    """The folder, for tests: `expect` takes what is tried, whether it holds, and what was told; the programs of a release are tried if they are proved."""

    def __init__(self, room, prefix, expect):
        self.root, self.expect = f"{room}/debian_11", expect
        shutil.copytree(DEBIAN_11, self.root, symlinks=True)
        shutil.copytree(prefix, f"{self.root}/ntwin", symlinks=True)
        for it in ("proc", "tmp"):
            os.mkdir(f"{self.root}/{it}")

    def ran(self, *words):
        """Runs a command in the folder; answers its status and what it wrote."""
        return ran([*INSIDE, self.root, *words], PATH="/usr/sbin:/usr/bin:/sbin:/bin", LD_LIBRARY_PATH="/ntwin/lib")

    def can_run(self):
        """Whether the system lets this user run something there."""
        return bool(shutil.which("unshare")) and "GLIBC 2.31" in self.ran(f"/{LIBRARIES}/libc.so.6")[1]

    def wants(self, what, wrote, *words):
        status, found = self.ran(*words)
        self.expect(f"{what} over glibc {oldest.OLDEST}", status == 0 and found == wrote, f"status {status}, {found}")

    def build(self, source, kind):
        """Compiles a source to the file `program` there; answers its name."""
        name = os.path.basename(source)[:-2]
        words = compile_with(self.root, f"{self.root}/ntwin", source, f"{self.root}/program", kind)
        built = subprocess.run(words, stdin=subprocess.DEVNULL, capture_output=True, text=True, check=False)
        self.expect(f"{name}, {kind}, built over glibc {oldest.OLDEST}", built.returncode == 0, built.stderr)
        return name

    def try_examples(self, examples, output_of):
        for source in examples:
            for kind in KINDS:
                name = self.build(source, kind)
                self.wants(f"{name}, {kind}", output_of(name), "/program")

    def try_tests(self, sources):
        """Tests of the library, each of which counts in its last line."""
        for source in sources:
            name = self.build(source, "static")
            status, said = self.ran("/program")
            has_passed = status == 0 and re.search(r"(?m)^[1-9]\d* passed, 0 failed\Z", said.rstrip())
            self.expect(f"the test {name} over glibc {oldest.OLDEST}", has_passed, f"status {status}, {said}")

    def try_programs(self, script, transcript, version):
        shutil.copy(script, f"{self.root}/script.nts")
        self.wants("ntrun", transcript, "/ntwin/bin/ntrun", "script", "/script.nts")
        self.wants("ntlook", "/script.nts:6: nobody waits\n", "/ntwin/bin/ntlook", "why", "/script.nts")
        for name in ("ntrun", "ntlook"):
            self.wants(f"{name} --version", f"{name} {version}\n", f"/ntwin/bin/{name}", "--version")

    def try_extension(self, wheel):
        """Each symbol of the extension is found, but for Python's own."""
        shutil.unpack_archive(wheel, f"{self.root}/wheel", "zip")
        path, = glob.glob(f"{self.root}/wheel/*/*.so")
        loader = [f"{self.root}/{LIBRARIES}/ld-2.31.so", "--library-path", f"{self.root}/{LIBRARIES}"]
        status, said = ran([*loader, path], LD_TRACE_LOADED_OBJECTS="1", LD_WARN="yes", LD_BIND_NOW="yes")
        lacking = re.findall(r"undefined symbol: (\w+)", said)
        is_whole = f"libc.so.6 => {self.root}/" in said and "not found" not in said and all(it.startswith(("Py", "_Py")) for it in lacking)
        self.expect(f"the wheel's extension over glibc {oldest.OLDEST}", is_whole and lacking, f"status {status}, {said}")
