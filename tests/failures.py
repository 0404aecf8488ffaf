"""How the tests that are written in Python tell what failed: as a compiler would, with a place first, and each difference once.

A test has a name and a place, FILE:LINE. `Count` counts those that passed and failed, and tries only those whose names were asked for.
"""
import argparse
import difflib
import inspect
import os
import re
import sys
import threading

TOP = os.path.dirname(os.path.dirname(os.path.realpath(__file__)))
# Whoever imports this finds what stands once for all.
sys.path[:0] = [f"{TOP}/{it}" for it in ("tests", "launcher", "proving", "bench")]


def parser_of(doc, *, names="a part of the names of those that are to be run; all are, if none is given"):
    """What reads the command line of a program of tests whose page is `doc`: the names of tests."""
    parser = argparse.ArgumentParser(description=doc, formatter_class=argparse.RawDescriptionHelpFormatter)
    parser.add_argument("names", nargs="*", metavar="NAME", help=names)
    return parser


def words_of(doc, **texts):
    """The names on such a command line. Where help is asked for, it is given, and the program ends."""
    return parser_of(doc, **texts).parse_args().names


def beside(path):
    """The path as one names it at the top of the repository, where it lies there."""
    return os.path.relpath(path, TOP) if os.path.realpath(path).startswith(f"{TOP}/") else path


def difference(wanted, found, wanted_name, found_name):
    """The lines of a diff of two texts, with both sides named."""
    sides = (it.splitlines() for it in (wanted, found))
    lines = list(difflib.unified_diff(*sides, wanted_name, found_name, lineterm=""))
    return lines if len(lines) <= 60 else [*lines[:60], f".. {len(lines) - 60} lines more"]


def transcript_failure(place, script, wanted, found, found_name):
    """What is told where what the script of this place gives is not what is wanted: the line of the script that answers otherwise, and a diff."""
    lines = [it.splitlines() for it in (wanted, found)]
    at = next((i for i, (one, other) in enumerate(zip(*lines)) if one != other), min(map(len, lines)))
    sides = [it[at] if at < len(it) else "nothing more" for it in lines]
    told = [re.match(r"(\d+): ", it) for it in sides]
    number = next((it[1] for it in told if it), script.count(b"\n") or 1)
    return [f"{place}:{number}: wanted `{sides[0]}`, found `{sides[1]}`", *difference(wanted, found, "wanted", found_name)]


class Count:
    """Counts tests, which may run beside each other. Those are tried whose names have one of these parts, or all."""

    def __init__(self, names=()):
        self.names, self.passed, self.failed, self.lock = names, 0, 0, threading.Lock()

    def wants(self, name):
        return not self.names or any(it in name for it in self.names)

    def passes(self):
        with self.lock:
            self.passed += 1

    def fails(self, *lines):
        with self.lock:
            self.failed += 1
            print(*lines, sep="\n", flush=True)

    def holds(self, name, found, wanted, above=1):
        """Passes where what was found is what is wanted; else each part that differs is told, at the line of the program that asks."""
        if found == wanted:
            return self.passes()
        caller = inspect.stack()[above]
        place = f"{beside(caller.filename)}:{caller.lineno}: {name}"
        return self.fails(place, *told_apart(found, wanted))

    def tries(self, name, call, wanted):
        """The same of what the call gives, if this test is asked for."""
        if self.wants(name):
            self.holds(name, call(), wanted, 2)

    def ends(self):
        """Tells the count, and ends the program: well where nothing failed, and something was tried."""
        if self.names and not self.passed + self.failed:
            sys.exit(f"{beside(sys.argv[0])}: no test has a name with one of these in it: {' '.join(self.names)}; --help tells more")
        print(f"{self.passed} passed, {self.failed} failed")
        sys.exit(1 if self.failed else 0)


def told_apart(found, wanted):
    """What differs, as lines: of two texts of several lines a diff, and of tuples each part by itself."""
    if isinstance(wanted, tuple) and isinstance(found, tuple) and len(wanted) == len(found):
        return [line for one, other in zip(found, wanted) if one != other for line in told_apart(one, other)]
    texts = [it if isinstance(it, list) else as_text(it).splitlines() for it in (wanted, found)]
    if max(map(len, texts)) <= 1:
        return [f"  wanted: {shown(wanted)}", f"  found:  {shown(found)}"]
    return difference(*("\n".join(map(str, it)) for it in texts), "wanted", "found")


def as_text(value):
    return value.decode("utf-8", "backslashreplace") if isinstance(value, bytes) else str(value)


def shown(value):
    if value in ("", b"", []):
        return "nothing"
    return str(value[0]) if isinstance(value, list) and len(value) == 1 else as_text(value).rstrip("\n")
