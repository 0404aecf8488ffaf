"""What the words of a bench ask for; what benches found: the figures of each in a file below out/bench, from which `bench/all` writes the tables of
docs/PERFORMANCE.md; how instructions are counted, also by function; and the counts that rows are held to, in bench/NAME.counts."""
import argparse
import collections
import concurrent.futures
import glob
import json
import os
import re
import subprocess
import tempfile

TOP = os.path.dirname(os.path.dirname(os.path.abspath(__file__)))
KEPT = f"{TOP}/out/bench"


def asked(doc, *, numbers=None, names=(), flags=()):
    """What the command line asks for: each of the numbers, by its name and with what it is if left out; `names`, those of these names that have a part which
    was given, or all, and whether it is all; and the flags. Where help is asked for, it is given, and the program ends."""
    numbers = numbers or {}
    parser = argparse.ArgumentParser(description=doc, formatter_class=argparse.RawDescriptionHelpFormatter)
    places = " ".join([*(f"[{it.upper()}]" for it in numbers), *(["[NAME..]"] if names else [])])
    told = [f"{it.upper()}: {number}, if left out" for it, number in numbers.items()]
    if names:
        told.append("NAME: a part of the names of those that are to be measured; all are, if none is given: " + " | ".join(names))
    parser.usage = f"%(prog)s {''.join(f'[{it}] ' for it, _ in flags)}{places}"
    parser.add_argument("words", nargs="*", metavar="WORD", help="; ".join(told).replace("%", "%%"))
    for flag, what in flags:
        parser.add_argument(flag, action="store_true", help=what)
    found = parser.parse_args()
    for it, number in numbers.items():
        given = found.words and found.words[0].isdigit()
        setattr(found, it, int(found.words.pop(0)) if given else number)
    lacking = [it for it in found.words if not any(it in name for name in names)]
    if lacking:
        parser.error(f"no name has {lacking[0]!r} in it")
    found.is_all = not found.words
    found.names = [it for it in names if not found.words or any(word in it for word in found.words)]
    return found


def load():
    """How much work there is on this machine now, as benches tell it."""
    return f"{os.getloadavg()[0]:.1f} on {os.cpu_count()} processors"


def count(words, **how):
    """What the program prints, and how many instructions it runs, by valgrind's count."""
    counting = ["valgrind", "--tool=callgrind", "--callgrind-out-file=/dev/null", *words]
    ran = subprocess.run(counting, stdout=subprocess.PIPE, stderr=subprocess.PIPE, text=True, check=True, **how)
    return ran.stdout, int(re.search(r"Collected : (\d+)", ran.stderr)[1])


def at_once(work, items):
    """Yields what the work answers for each item, in their order, made on all processors at once: for counts, which other work does not change."""
    with concurrent.futures.ThreadPoolExecutor(os.cpu_count()) as pool:
        yield from pool.map(work, items)


def own_of(words, whole=False, **how):
    """How many instructions each function runs itself in that thread of a program which runs most, or in the whole program, by valgrind."""
    with tempfile.TemporaryDirectory() as folder:
        counting = ["valgrind", "--tool=callgrind", f"--separate-threads={'no' if whole else 'yes'}", f"--callgrind-out-file={folder}/it", *words]
        subprocess.run(counting, stdout=subprocess.DEVNULL, stderr=subprocess.DEVNULL, check=True, **how)
        return max((own_in(path) for path in glob.glob(f"{folder}/it*")), key=lambda it: sum(it.values()))


def own_in(path):
    """What callgrind wrote there, of a thread or of all: how many instructions each function runs itself."""
    with open(path, encoding="ascii", errors="replace") as file:
        lines = file.read().splitlines()
    names, own, function, is_callee = {}, collections.Counter(), None, False
    for line in lines:
        named = re.match(r"(c?fn)=\((\d+)\)(?: (.*))?$", line)
        if named:
            names.setdefault(named[2], named[3])
            function = named[2] if named[1] == "fn" else function
        elif line.startswith("calls="):
            is_callee = True
        elif re.match(r"[+*-]?\d* \d+$", line):
            own[names[function]] += 0 if is_callee else int(line.split()[-1])
            is_callee = False
    return own


def tell_functions(what, words_of, few, many, **how):
    """Tells in which functions the instructions of a round are: what `many` rounds take above `few`."""
    less, more = at_once(lambda it: own_of(words_of(it), **how), [few, many])
    rounds = {name: (count - less[name]) / (many - few) for name, count in more.items()}
    total = sum(rounds.values())
    print(f"{what}: {total:,.0f} instructions a round")
    for name, it in sorted(rounds.items(), key=lambda pair: -pair[1]):
        if it > total / 100:
            print(f"  {it:10,.0f}  {name}", flush=True)


def keep(bench, rows):
    """Keeps what a bench found: for each row, by what it is called, a number for each column. Other rows and columns are kept as they were."""
    os.makedirs(KEPT, exist_ok=True)
    before = kept(bench)
    for row, columns in rows.items():
        before.setdefault(row, {}).update(columns)
    with open(f"{KEPT}/{bench}.json", "w", encoding="utf-8") as file:
        json.dump(before, file, indent=1)


def kept(bench):
    """What was kept of a bench; nothing if it was not run."""
    try:
        with open(f"{KEPT}/{bench}.json", encoding="utf-8") as file:
            return json.load(file)
    except FileNotFoundError:
        return {}


def counts_of(bench):
    """The counts that a bench is held to, by row; none if none were written."""
    try:
        with open(f"{TOP}/bench/{bench}.counts", encoding="ascii") as file:
            return {row: int(count) for row, count in (line.rsplit(": ", 1) for line in file)}
    except FileNotFoundError:
        return {}


def write_counts(bench, counts):
    with open(f"{TOP}/bench/{bench}.counts", "w", encoding="ascii") as file:
        file.writelines(f"{row}: {round(count)}\n" for row, count in counts.items())


def held(bench, counts):
    """Says which rows take more than 5 in 100 above their counts, or have none; answers whether there is none of these. (A count that is kept is
    rounded, and rows of 15 instructions vary by half of one.)"""
    before = counts_of(bench)
    grown = [row for row, count in counts.items() if row not in before or 100 * count > 105 * (before[row] + 0.5)]
    for row in grown:
        print(f"bench/{bench}: {row}: {counts[row]:,} instructions, {before.get(row, 'none')} in bench/{bench}.counts")
    return not grown
