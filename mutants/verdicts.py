"""What the verdict on a mutant and a crate's check rest on, and the sums under which a refusal and a check are kept (proving/kept.py).

The sum of a mutant is of the crate's own texts, of those that the mutant changes, and of what their words lead to: definitions (specs/) of the crates below it, and
the heads, with their contracts, of public functions of those that it uses. All else that those declare is in it too, but no proof, body or comment
of a crate below. Of this repository's code it has what tries mutants and judges them.
"""
import functools
import os
import re

from crates import files_below
from kept import JUDGES, bytes_of, sum_of, sum_of_files, sum_of_kit
from sources import BETWEEN, blocks_in
from words import words_of

# The code that tries mutants and judges them, read once as well.
JUDGES_OF_MUTANTS = [*JUDGES, *(bytes_of(it) for it in files_below(os.path.dirname(os.path.realpath(__file__))) if it.endswith(".py"))]


def without_comments(text, mark):
    """The text's lines, with no comments that begin with this mark, no spaces at their ends and none empty."""
    lines = (it.partition(mark)[0].rstrip() for it in text.split("\n"))
    return "\n".join(it for it in lines if it)


def words_in(text):
    """The words of a text, as antt and as Rattle part them."""
    return {*re.split(r"[\s(){}\[\];:,.]+", text), *re.findall(r"\w+", text)}


def definitions(crate):
    """Yields each part of specs/ that begins at a line's start: its path, the names that lead to it, and its text. One that may be reached without a
    name, as an operator, has no names."""
    for path in (it for it in crate.files() if it.startswith("specs/") and it.endswith(".antt")):
        text = without_comments(crate.text(path), "--")
        for part in re.findall(r"(?m)^\S.*\n?(?:[ \t].*\n?)*", text):
            firsts = [re.sub(r"^(?:(?:abbrev|pub|data|record|unfoldable) )*", "", it.strip()) for it in part.split("\n")]
            names = {re.split(BETWEEN, it)[0] for it in firsts if it}
            if not firsts[0].startswith(("use ", "mod ")) or " as " in part:
                yield path, set() if "◌" in "".join(names) or " as " in part else names, part


def functions_in(text):
    """Yields each function of a file that has a body: whether it is a method of a trait's impl, its name, and the lines of its head, its brace and its end."""
    for *around, (what, names, head, opens, ends) in blocks_in(words_of(text)):
        if what == "fn":
            yield any(it[0] == "impl" and len(it[1]) > 1 for it in around), names[0], head, opens, ends


def heads(crate):
    """Yields what a crate declares to those above it, without bodies: its path, the names that lead to it, and its text. Methods of a trait and impls
    have no names, since code can reach them without any."""
    for path in (it for it in crate.files() if it.endswith(".rt")):
        lines, inside = crate.text(path).split("\n"), set()
        for of_trait, name, head, opens, ends in functions_in(crate.text(path)):
            text = without_comments("\n".join(lines[head - 1 : opens]), "//")
            inside |= {*range(head, ends + 1)}
            if of_trait or re.search(r"\bpub\b", text):
                yield path, set() if of_trait else {name}, text
        rest = without_comments("\n".join(it for at, it in enumerate(lines, 1) if at not in inside), "//")
        rest = re.sub(r"(?m)^\s*(?:pub |ghost )?use\b[^;]*;\n?", "", rest)
        for part in re.findall(r"(?m)^(?:#\[.*\n)*\S.*\n?(?:[ \t})].*\n?)*", rest):
            yield path, {it for _, it in re.findall(r"\b(struct|enum|trait|const|static|type|mod) (\w+)", part)}, part


@functools.lru_cache(maxsize=None)
def parts(crate, of_what):
    """The definitions or heads of the crate: each with the crate's name before its path, the names that lead to it, its text, and the text's words."""
    return [(f"{crate.name}/{path}", names, text, words_in(text)) for path, names, text in of_what(crate)]


@functools.lru_cache(maxsize=None)
def below(crate):
    """The definitions of all crates below, and the heads of those that it uses; and the names that lead to them."""
    found = [part for it in crate.below() for part in parts(it, definitions)] + [part for it in crate.uses for part in parts(it, heads)]
    return found, frozenset().union(*(names for _, names, *_ in found))


@functools.lru_cache(maxsize=None)
def sum_of_own(crate):
    """The sum of what a verdict rests on beside contracts and the mutant, and the words of the crate's texts."""
    texts = [part for path in crate.files() for part in (path, crate.text(path))]
    return sum_of(sum_of_kit(), *JUDGES_OF_MUTANTS, crate.name, *texts), frozenset().union(*(words_in(crate.text(path)) for path in crate.files()))


@functools.lru_cache(maxsize=None)
def sum_of_reached(crate, words):
    """The sum of what these words lead to in the crates below."""
    left, found = below(crate)[0], []
    while more := [it for it in left if not it[1] or it[1] & words]:
        left = [it for it in left if it[1] and not it[1] & words]
        words = words.union(*(it[3] for it in more))
        found += more
    return sum_of(*(part for name, text in sorted((name, text) for name, _, text, _ in found) for part in (name, text)))


def sum_of_mutant(edit):
    """The sum of all that tells whether the mutant is refused."""
    own, words = sum_of_own(edit.crate)
    words = words.union(*map(words_in, edit.lines.values())) & below(edit.crate)[1]
    return sum_of(own, sum_of_reached(edit.crate, words), *(part for path, text in sorted(edit.texts.items()) for part in (path, text)))


def sum_of_check(crate):
    """The sum of all that a crate's check rests on: its own files, its line and those of the crates below it, HANDLES, the kit, what judges, and what the
    crates below define and declare. It has no proof, body or comment of these."""
    texts = [crate.line, sum_of_files(crate.folder), bytes_of(f"{crate.folder}/../../HANDLES")]
    for it in crate.below():
        texts += [it.line, *(text for of_what in (definitions, heads) for path, _, part, _ in parts(it, of_what) for text in (path, part))]
    return sum_of("a check", sum_of_kit(), *JUDGES_OF_MUTANTS, *texts)
