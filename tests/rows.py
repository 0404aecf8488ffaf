"""Tests that stand as text, in blocks: the runs of the launchers and of the program itself in tests/rows, and the worked scripts in tests/scripts.

A block begins with its head, and an empty line ends it. What is written stands after `> `, what is said on standard error after `! `, and a script or a
file after `| `, with escapes as in Python.

- `script NAME`, of a file of tests/scripts, is a worked script; `form NAME` one of odd form.
- `lines NAME` is a script in which a line with `{FILLING}` is filled up to 4096 bytes: with FILLING as often as it has room, and gaps for the rest.
  With a byte more each such line is too long, and what the lines before it write is all that is written.
- `words NAME` has command lines of the program itself, each after `$ ` as a shell reads it, with the script that they name. It ends with the `status`,
  or 0.
- `run WHAT` is a run of a launcher: its words after `$ `, what is given on standard input after `< `, the exit status if it is not 0. `shell WHAT` is
  a command of bash, in which $0 is the launcher. `text NAME` is a text that others name as @NAME at a line's end, and `file NAME` a file that the runs
  have before them. `order NAME` is the script that `ntlook explore` writes of the order in which that file hangs.
"""
import glob
import os
import re
import shlex

TOP = os.path.dirname(os.path.dirname(os.path.realpath(__file__)))
ROWS, SCRIPTS = f"{TOP}/tests/rows", f"{TOP}/tests/scripts"
MOST, MOST_HANDLES = 4096, 65536
NO_LF = "no LF at the end"


def unescaped(text):
    return text.encode("latin-1").decode("unicode_escape")


def named(text, texts):
    """The text with what it names at its end in place."""
    return re.sub(r"@([A-Z_]+)$", lambda it: texts[it[1]][:-1], text)


def lines_of(block, mark):
    return [it[len(mark) :].removeprefix(" ") for it in block if it.startswith(mark)]


def blocks_of(name, folder=ROWS):
    """Each block of the file of this name: the words of its head, and its lines."""
    with open(f"{folder}/{name}", encoding="utf-8") as file:
        parts = [[it for it in part.split("\n") if it and not it.startswith("#")] for part in file.read().split("\n\n")]
    return [(*part[0].partition(" ")[::2], part[1:]) for part in parts if part]


def blocks_of_program(kind):
    """The name and lines of each block of this kind for the program itself."""
    return [(name, block) for found, name, block in blocks_of("program") if found == kind]


def rows_of(name):
    """The texts of a file of rows, its files, and its runs: what each is, its words, what is given, and the status, what is written and what is said."""
    texts, files, runs = {}, {}, []
    for kind, head, block in blocks_of(name):
        if kind == "text":
            texts[head] = "".join(f"{named(unescaped(it), texts)}\n" for it in lines_of(block, "|"))
        elif kind == "file":
            files[head] = script_of(block)
        elif kind == "run":
            given = [files[it[1:]] if it.startswith("@") else f"{it}\n".encode() for it in lines_of(block, "<")]
            runs.append((head, shlex.split("".join(lines_of(block, "$"))), b"".join(given), *wanted_of(block, texts)))
    return texts, files, runs


def wanted_of(block, texts):
    """The exit status that a block wants, what is to be written and what is to be said."""
    written, said = ([named(it, texts) for it in lines_of(block, mark)] for mark in (">", "!"))
    return int("".join(lines_of(block, "status")) or 0), "".join(f"{it}\n" for it in written), said


def faults():
    """The rows of faults: each fault, the lines before its own, that line with its mark, what can stand there, and what more is told."""
    texts = rows_of("faults")[0]
    for kind, head, block in blocks_of("faults"):
        for row in [f"{kind} {head}", *block] if kind != "text" else ():
            fault, before, marked, stands, hint = [it.strip(" ") for it in f"{row} | |".split("|")][:5]
            yield fault, unescaped(before), marked.replace("\\t", "\t"), named(stands, texts) or None, hint or None


def explained(number, fault, marked, stands, hint):
    """The lines that are said of a fault whose line is marked so. A missing word is marked after the line."""
    start = marked.find("^")
    end = marked.find("^", start + 1)
    line = marked.replace("^", "").rstrip() if fault == "missing word" else marked.replace("^", "")
    length = end - start - 1 if end > 0 else 1
    if fault == "bad byte":
        start, length = line.index("\\x"), 4
    before = "".join("\t" if it == "\t" else " " for it in marked[:start])
    said = [f"ntrun: line {number}: {fault}", f"script.nts:{number}:{start + 1}: {fault}", f"  {line}", f"  {before}{'^' * length}"]
    return said + [f"  {it}" for it in (hint, stands and f"here can stand: {stands}") if it]


def text_after(mark, block):
    return "".join(f"{it}\n" for it in lines_of(block, mark))


def script_of(block):
    script = "".join(f"{unescaped(it)}\n" for it in lines_of(block, "|")).encode("latin-1")
    return script[:-1] if NO_LF in block else script


def worked_blocks():
    """Each worked script of tests/scripts: the name of its file and its own, and its lines."""
    return [(f"{subject}/{name}", block) for subject in sorted(os.listdir(SCRIPTS)) for _, name, block in blocks_of(subject, SCRIPTS)]


def worked_scripts():
    """Each worked script: its name, its bytes, and what is written and said."""
    return [(name, script_of(block), text_after(">", block), text_after("!", block)) for name, block in worked_blocks()]


def reports(top=TOP):
    """What examples/reports says that commands write of the examples, by the command: a transcript of each, and reports on some."""
    with open(f"{top}/examples/reports", encoding="ascii") as file:
        return dict(it.split("\n", 1) for it in re.split(r"(?m)^\$ ", file.read())[1:])


def all_scripts():
    """The scripts of examples, and the worked ones: where each stands, and the same of it."""
    for path in sorted(glob.glob(f"{TOP}/examples/*.nts")):
        place = os.path.relpath(path, TOP)
        with open(path, "rb") as script:
            yield place, script.read(), reports()[f"./ntrun script {place}"], ""
    for name, *script in worked_scripts():
        yield f"tests/scripts/{name}", *script


def command_lines():
    """Each command line: what it is, its words, the file to be made for it and what that has, the exit status, and what is written and said."""
    for name, block in blocks_of_program("words"):
        wanted = int("".join(lines_of(block, "status")) or 0), text_after(">", block), text_after("!", block)
        script = script_of(block)
        for line in lines_of(block, "$"):
            words = shlex.split(line)
            # (FILE is the one word after `script` that is not `--`, or `--` where there is none.)
            named = ([it for it in words[1:] if it != "--"] or ["--"])[0]
            yield f"{name}: {line}", words, (named, script) if script else None, wanted


def filled(line, most):
    """The line with its filling, where it has one."""
    begins, filling, ends = re.fullmatch(rb"(?s)([^{]*)\{([^}]+)\}(.*)", line).groups()
    times, gaps = divmod(most - len(begins) - len(ends.rstrip(b"\n")), len(filling))
    return begins + filling * times + b" " * gaps + ends


def long_scripts():
    """The scripts of odd forms, those with lines that are filled up, and one that creates more events than there are handles: what each is, its
    bytes, and what is written and said."""
    for name, block in blocks_of_program("form"):
        yield name, script_of(block), text_after(">", block), text_after("!", block)
    yield "a fault in line 300", b"threads 1\n" + b"\n" * 298 + b"t0 sett e\n", "", "ntrun: line 300: unknown word\n"
    yield from long_lines()
    creations = "".join(f"t0 event e{it}\n" for it in range(1, MOST_HANDLES + 1))
    answers = "".join(f"{it + 1}: handle {it}\n" for it in range(1, MOST_HANDLES))
    # (the first of 65,536 handles is the thread's own)
    yield "handles run out", f"threads 1\n{creations}".encode(), f"{answers}{MOST_HANDLES + 1}: error 536870919\nend: pending none\n", ""


def long_lines():
    for name, block in blocks_of_program("lines"):
        transcript, lines = text_after(">", block), script_of(block).splitlines(keepends=True)
        marked = [at for at, it in enumerate(lines) if b"{" in it]
        whole = [filled(it, MOST) if at in marked else it for at, it in enumerate(lines)]
        yield name, b"".join(whole), transcript, text_after("!", block)
        for at in marked:
            longer = [*whole[:at], filled(lines[at], MOST + 1), *whole[at + 1 :]]
            before = [it for it in transcript.splitlines(keepends=True) if re.match(r"\d+:", it) and int(it.split(":")[0]) <= at]
            yield f"{name}, line {at + 1} of a byte more", b"".join(longer), "".join(before), f"ntrun: line {at + 1}: line too long\n"
