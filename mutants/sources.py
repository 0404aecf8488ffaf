"""What stands where in a crate's text: its functions, and the definitions of its specs/."""
import bisect
import collections
import re

from words import words_of

# What parts the words of a definition or a contract.
BETWEEN = r"[\s(){};,.]+"


# Where a function stands: its path as a check prints it, the folder of its proof files, and the lines of its head, its body's brace and its end.
Function = collections.namedtuple("Function", "path proofs head opens ends")


def named(head):
    """Returns what a block is and its names, from the words before its brace: ("impl", [type, trait]), ("fn", [name]), .., ("", [])."""
    for word, name in zip(head, head[1:]):
        if word in ("fn", "mod", "trait", "struct", "enum") and re.match(r"\w", name):
            return word, [name]
        if word == "impl":
            return word, implemented(head[head.index(word) + 1 :])
    return "", []


def implemented(words):
    """Returns the type and the trait, if there is one, that an impl names, from the words after `impl`. What a trait is at is in its name, as
    AllocError of `From<AllocError>` and AllocFailed alone of `From<AllocFailed<T>>`."""
    depth, names, is_at = 0, [""], "for" in words
    for word in words:
        depth += (word == "<") - (word == ">")
        if word in ("for", "where") and not depth:
            names.append("")
        elif re.match(r"\w", word) and depth == 1 and is_at and len(names) == 1 and names[0]:
            names[0] += word
        elif re.match(r"\w", word) and not depth:
            names[-1] = word
    return names[1::-1] if "for" in words else names[:1]


def blocks_in(code):
    """Yields each block of a file with the blocks around it, as (what it is, its names, its first line, its brace's, its last), innermost first."""
    blocks, head, depth = [], [], 0
    for line, word in code:
        depth += (word in ("(", "[")) - (word in (")", "]"))
        if word == "{":
            blocks.append((*named([it for _, it in head]), head[0][0] if head else line, line))
        elif word == "}":
            yield [*blocks[:-1], (*blocks.pop(), line)]
        head = [] if word in ("{", "}") or word == ";" and not depth else [*head, (line, word)]


def functions_of(crate):
    """Returns each function of the crate that has a body, by file and line. A type's methods have its path, wherever they stand."""
    files = [it for it in crate.files() if it.endswith(".rt")]
    found = [(path, blocks) for path in files for blocks in blocks_in(words_of(crate.text(path)))]
    modules = {it: [name for name in it[len("src/") : -len(".rt")].split("/") if name not in ("lib", "main", "mod")] for it in files}
    homes = {blocks[-1][1][0]: modules[path] for path, blocks in found if blocks[-1][0] in ("struct", "enum")}
    functions = []
    for path, blocks in found:
        names = modules[path]
        for what, own, *_ in blocks:
            names = [*homes.get(own[0], names), "".join(own)] if what == "impl" else [*names, *own]
        what, _, head, opens, ends = blocks[-1]
        if what == "fn":
            functions.append(Function("::".join([crate.name, *names]), "/".join(["proofs", *names, ""]), (path, head), opens, ends))
    return sorted(functions, key=lambda it: it.head)


def function_at(functions, path, line):
    """Returns the innermost of the functions in which this line stands, or None."""
    before = functions[: bisect.bisect_right([it.head for it in functions], (path, line))]
    return next((it for it in reversed(before) if it.head[0] == path and line <= it.ends), None)


def definitions_of(crate):
    """Yields each line of a definition in specs/: the file, the line's number, the definition's name and the line's words."""
    for path in (it for it in crate.files() if it.startswith("specs/") and it.endswith(".antt")):
        name = None
        for number, line in enumerate(crate.text(path).split("\n"), 1):
            words = [it for it in re.split(BETWEEN, line.partition("-- ")[0]) if it]
            if line[:1].strip() and words and words[0] != "use":
                name = next(it for it in words if it not in ("abbrev", "pub", "data", "record", "mod"))
            if name and words:
                yield path, number, name, {*words}


def cites(definitions, lines):
    """Returns the names of the definitions that stand at these lines, and of all that cite them."""
    texts, found = collections.defaultdict(set), set()
    for path, number, name, words in definitions:
        texts[name] |= words
        found |= {name} if (path, number) in lines else set()
    while more := {name for name, words in texts.items() if words & found} - found:
        found |= more
    return found


def words_of_head(crate, function):
    """Returns the words of a function's head, its contract among them."""
    path, first = function.head
    text = crate.text(path).split("\n")[first - 1 : function.opens]
    return {*re.split(BETWEEN, "\n".join(text))}
