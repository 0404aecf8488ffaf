"""The crates of a tree, as its crates.txt lists them."""
import os
import re

PARTS = ("src", "specs", "proofs")


class Crate:
    """A line of crates.txt: a crate, the libraries of this tree that it uses, and those of the kit."""

    def __init__(self, top, line, known):
        name, _, uses = line.partition(":")
        self.name, *said = name.split()
        self.line, self.folder = line, f"{top}/crates/{self.name}"
        self.is_static = "staticlib" in said
        self.is_program = os.path.isfile(f"{self.folder}/src/main.rt")
        self.uses = [known[it] for it in uses.split() if it in known]
        self.of_kit = [it for it in uses.split() if it not in known]

    @property
    def kind(self):
        return "program" if self.is_program else "static library" if self.is_static else "library"

    @property
    def made(self):
        """What the crate's proof makes, below its folder, for those above it and for the steps that run programs."""
        return {"program": f"out/{self.name}", "static library": f"out/lib{self.name}.a", "library": "out/rlib"}[self.kind]

    def below(self):
        """The libraries of this tree below the crate, each after those that it uses."""
        found = []
        for it in self.uses:
            found += [other for other in [*it.below(), it] if other not in found]
        return found

    def files(self):
        """The paths of its texts, in order, each below its folder."""
        return [os.path.relpath(it, self.folder) for part in PARTS for it in files_below(f"{self.folder}/{part}")]

    def text(self, path):
        return text_of(f"{self.folder}/{path}")

    def has_tests(self):
        return any(re.search(r"(?m)^\s*#\[test\]", self.text(it)) for it in self.files() if it.endswith(".rt"))

    def has_tests_alone(self):
        """Whether the root has modules of tests and nothing else."""
        code = re.sub(r"(?m)^\s*//.*$|^#!\[.*\]$", "", self.text("src/lib.rt"))
        return self.has_tests() and re.fullmatch(r"(\s*#\[cfg\(test\)\]\s*mod \w+;)+\s*", code) is not None

    def lines(self, ending=".rt"):
        return sum(self.text(it).count("\n") for it in self.files() if it.endswith(ending))


def crates_of(top):
    """The tree's crates by name, each after those that it uses."""
    lines = [it.partition("#")[0].strip() for it in text_of(f"{top}/crates.txt").splitlines()]
    left = {it.partition(":")[0].split()[0]: it for it in lines if it}
    known = {}
    while left:
        ready = [it for it, line in left.items() if not {*line.partition(":")[2].split()} & left.keys()]
        if not ready:
            raise ValueError(f"crates.txt: these crates use one another: {' '.join(left)}")
        for name in ready:
            known[name] = Crate(top, left.pop(name), known)
    return known


def text_of(path):
    """The text of a file; empty where there is none."""
    if not os.path.isfile(path):
        return ""
    with open(path, encoding="utf-8", errors="replace") as file:
        return file.read()


def files_below(folder):
    """The paths of the files at and below a folder, in order."""
    return sorted(f"{at}/{name}" for at, _, names in os.walk(folder) for name in names)
