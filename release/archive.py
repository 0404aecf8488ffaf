"""Archives whose bytes depend on what is packed alone."""
import hashlib
import os
import subprocess
import tarfile


def hash_of(path):
    with open(path, "rb") as file:
        return hashlib.sha256(file.read()).hexdigest()


def below(folder):
    """Each folder, file and link below, in order, each below that folder."""
    found = []
    for at, folders, names in os.walk(folder):
        found += [os.path.relpath(f"{at}/{it}", folder) for it in folders + names]
    return sorted(found)


def set_times(folder, time):
    """Gives all below this folder one time and the modes of what is installed."""
    for it in [*below(folder), "."]:
        path = f"{folder}/{it}"
        if not os.path.islink(path):
            is_program = {"bin", "libexec"} & set(it.split("/"))
            os.chmod(path, 0o755 if os.path.isdir(path) or is_program else 0o644)
        os.utime(path, (time, time), follow_symlinks=False)


def archive(room, name, to, time):
    """Writes the folder of this name in the room as `to`, an archive that xz compresses by one thread."""

    def plain(it):
        it.uid = it.gid = 0
        it.uname = it.gname = "root"
        it.mtime = time
        return it

    with open(to, "wb") as file:
        xz = subprocess.Popen(["xz", "-9", "--threads=1", "-c"], stdin=subprocess.PIPE, stdout=file)
        with tarfile.open(fileobj=xz.stdin, mode="w|", format=tarfile.GNU_FORMAT) as tar:
            tar.add(f"{room}/{name}", name, recursive=False, filter=plain)
            for it in below(f"{room}/{name}"):
                tar.add(f"{room}/{name}/{it}", f"{name}/{it}", recursive=False, filter=plain)
        xz.stdin.close()
        if xz.wait():
            raise subprocess.CalledProcessError(xz.returncode, "xz")
