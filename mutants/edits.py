"""The mutants of mutants/CRATE.edits, and the rounds that they stand in.

A block is the line `# NAME`, or `# private NAME`, and then lines `file:`, `old:` and `new:` as `rt help` tells the form of a must-fail edit; an empty
line ends it.
"""
import os
import re

from crates import PARTS, crates_of, text_of
from sources import cites, definitions_of, function_at, words_of_head

# A block: whether it is private, its name, and its files, each with the texts that it replaces; and what these have.
BLOCK = re.compile(r"# (private )?(\S+)\n((?:file: .+\n(?:old: .+\nnew:.*\n)*)*)")
PART = re.compile(r"file: (.+)\n|old: (.+)\nnew: ?(.*)\n")


def blocks_of(text):
    """Yields each block: the number of its first line, its name, the (file, old, new) that it replaces, and whether it is private; or the line at which
    it is malformed, and why."""
    for block in re.finditer(r"(?:.+\n)+", f"{text}\n"):
        line, found, file, pairs = text.count("\n", 0, block.start()) + 1, BLOCK.match(block[0]), "", []
        end = found.end() if found else 0
        for path, old, new in PART.findall(block[0][:end]):
            file = path or file
            pairs += [] if path else [(file, old, new)]
        if pairs and end == len(block[0]):
            yield line, found[2], pairs, bool(found[1])
        else:
            yield line + block[0].count("\n", 0, end), "a block is `# NAME`, and then `file:` and pairs of `old:` and `new:`", None, False


def texts_of_edit(crate, pairs):
    """The texts of the files that the edit changes, by their paths in the crate; or none, and why it cannot be applied."""
    texts = {}
    for path, old, new in pairs:
        if not path.startswith(PARTS) or not os.path.isfile(f"{crate.folder}/{path}"):
            return {}, f"there is no file {path}"
        text = texts.get(path, crate.text(path))
        if text.count(old) != 1:
            return {}, f"an `old:` text stands in {path} {text.count(old)} times, and not once: {old.strip()[:60]}"
        texts[path] = text.replace(old, new)
    changed = any(text != crate.text(path) for path, text in texts.items())
    return (texts, None) if changed else ({}, "it changes nothing")


class Edit:
    """A mutant: the lines that it changes, by file and number, and the functions in whose bodies they stand, or the laws that cite them."""

    def __init__(self, crate, name, pairs, is_private):
        self.crate, self.name, self.is_private = crate, f"{crate.name}/{name}", is_private
        self.texts, self.bad = texts_of_edit(crate, pairs)
        self.lines = {at: new for path, text in self.texts.items() for at, new in changed(crate, path, text)}
        self.functions, self.laws, self.is_shared = set(), set(), False

    def find(self, functions):
        """Finds the functions in whose bodies it stands, and the laws that cite what it changes."""
        found = [function_at(functions, path, line) for path, line in self.lines]
        inside = all(it and (it.opens < line or self.keeps_head(it, path, line)) for it, (path, line) in zip(found, self.lines))
        self.functions = {*found} if found and inside else set()
        self.laws = set() if self.functions else self.laws_that_cite(functions)

    def keeps_head(self, function, path, line):
        """Whether the edit leaves the function's head as it is and puts a body after it, at the head's last line. (The old body is then that of a
        function which the edit makes, and which nothing calls.)"""
        own = self.crate.text(path).split("\n")[line - 1]
        return line == function.opens - 1 and self.lines[path, line].startswith(f"{own} {{")

    def laws_that_cite(self, functions):
        """The laws that cite what the edit changes. It is shared where other functions cite that too."""
        if not self.lines or not all(path.startswith("specs/") for path, _ in self.lines):
            return set()
        cited = cites(definitions_of(self.crate), self.lines)
        citing = {it for it in functions if cited & words_of_head(self.crate, it)}
        self.is_shared = any(it.opens != it.ends for it in citing)
        return {it for it in citing if it.opens == it.ends}

    def changes(self):
        """The functions and laws that it changes; none where it is tried alone."""
        return self.functions | self.laws


def changed(crate, path, text):
    """Yields each line that differs from the crate's own. (The texts of an edit are parts of one line.)"""
    for at, (old, new) in enumerate(zip(crate.text(path).split("\n"), text.split("\n")), 1):
        if old != new:
            yield (path, at), new


def rounds_of(edits, parts=Edit.changes):
    """Rounds in which no two edits change one function or law, or another part, as few as that with most edits needs. Edits of laws come last and into
    the smallest rounds, since a round that they spoil is tried once more without them, and shared ones stand beside no edit of a function."""
    rounds = []
    for edit in sorted(edits, key=lambda it: bool(it.laws)):
        free = [it for it in rounds if not any(parts(edit) & parts(other) or edit.is_shared and other.functions for other in it)]
        if free:
            free[-1 if edit.laws else 0].append(edit)
        else:
            rounds.append([edit])
    return rounds


def texts_of(crate, edits):
    """The texts of the files that these edits change, with all of them in place."""
    texts = {}
    for (path, line), new in (it for edit in edits for it in edit.lines.items()):
        text = texts.setdefault(path, crate.text(path).split("\n"))
        text[line - 1] = new
    return {path: "\n".join(text) for path, text in texts.items()}


def edits_of(top, crate, parts=()):
    """The mutants of a crate whose names have one of these parts, or all; and what is wrong with those that cannot be applied."""
    found, bad, places = [], [], {}
    shown = f"mutants/{crate.name}.edits"
    for line, name, pairs, is_private in blocks_of(text_of(f"{top}/{shown}")):
        edit = Edit(crate, name, pairs, is_private) if pairs else None
        why = name if not edit else f"{name} stands at {places[name]} too" if name in places else edit.bad and f"{name}: {edit.bad}"
        places.setdefault(name, f"{shown}:{line}")
        if why:
            bad.append(f"{shown}:{line}: BAD EDIT: {why}")
        elif not parts or any(it in name for it in parts):
            found.append(edit)
    return found, bad


def edits_in(top, name=None, parts=()):
    """The mutants by crate, of the crate `name` alone where it is given, and what is wrong with those that cannot be applied."""
    crates, found, bad = crates_of(top), {}, []
    for it in sorted(it.removesuffix(".edits") for it in os.listdir(f"{top}/mutants") if it.endswith(".edits")):
        if it not in crates:
            bad.append(f"mutants/{it}.edits: BAD EDIT: there is no crate {it}")
        elif name in (None, it):
            edits, wrong = edits_of(top, crates[it], parts)
            bad += wrong
            found.update({crates[it]: edits} if edits else {})
    return found, bad
