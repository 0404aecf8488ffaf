"""Which functions the mutants change, and the public ones that none of mutants/CRATE.edits changes."""
import re

from crates import crates_of, text_of
from sources import cites, definitions_of, function_at, functions_of, words_of_head

PUBLIC = re.compile(r"(?m)^\s*pub (?:(?:const|unsafe) )*fn ")
EXPORTED = re.compile(r'(?m)^pub extern "C" fn ')
# What the root file of a crate shows of it: `pub use module::{Name, Other};`
SHOWN = re.compile(r"(?m)^pub use \w+::(\w+|\{[^}]*\});")
# The head of a law: a function that takes nothing and gives nothing, and whose contract is what it states.
LAW = re.compile(r"(?m)^\s*pub fn \w+\(\)$")
# Public functions that need no mutant, each with the reason: `a::path::of::it: why`.
REASONED = "mutants/none"


def has_head(crate, function, pattern):
    path, first = function.head
    return bool(pattern.search("\n".join(crate.text(path).split("\n")[first - 1 : function.opens])))


def is_public(crate, function):
    """Whether others than the crate may call it: the root file names it or its type, or it is one of C's."""
    shown = {name for names in SHOWN.findall(crate.text("src/lib.rt")) for name in re.findall(r"\w+", names)}
    return has_head(crate, function, EXPORTED) or has_head(crate, function, PUBLIC) and bool(shown & {*function.path.split("::")[-2:]})


def mutants_by_function(crate, edits):
    """Each function of the crate with the edits that change it, or that change what it states where it is a law."""
    functions, definitions = functions_of(crate), list(definitions_of(crate))
    found = {it: [] for it in functions}
    laws = {it: words_of_head(crate, it) for it in functions if has_head(crate, it, LAW)}
    for edit in edits:
        cited = cites(definitions, edit.lines) if laws else set()
        changed = {function_at(functions, path, line) for path, line in edit.lines if path.startswith("src/")}
        for it in changed - {None} | {law for law, words in laws.items() if words & cited}:
            found[it].append(edit)
    return found


def reasons(top):
    """The functions of `mutants/none`, each with its reason."""
    lines = [it for it in text_of(f"{top}/{REASONED}").splitlines() if it and not it.startswith("#")]
    return {path: reason.strip() for path, _, reason in (it.partition(": ") for it in lines)}


def unreached(top, found):
    """What is wrong: a public function of a library that no mutant changes, but for private ones, and for which no reason stands in `mutants/none`; and
    a line there that is not needed. It returns how many public functions there are, and a line for each that is wrong."""
    given, wrong, many = reasons(top), [], 0
    edits = {crate.name: [it for it in some if not it.is_private] for crate, some in found.items()}
    for crate in crates_of(top).values():
        if crate.is_program or crate.has_tests_alone():
            continue
        mutants = mutants_by_function(crate, edits.get(crate.name, []))
        public = [it for it in mutants if is_public(crate, it)]
        many += len(public)
        for it in public:
            reason = given.pop(it.path, None)
            if not mutants[it] and not reason:
                wrong.append(f"crates/{crate.name}/{it.head[0]}:{it.head[1]}: no mutant changes the public function {it.path}")
            elif mutants[it] and reason is not None:
                wrong.append(f"{REASONED}: {it.path} has a mutant: {mutants[it][0].name}")
    return many, wrong + [f"{REASONED}: there is no public function {it}" for it in given]


def listed(top, found, parts):
    """Lines that name functions with their mutants: those of the crate and with the part of a name that are given, or of all."""
    name, part = [*parts, "", ""][:2]
    edits = {crate.name: some for crate, some in found.items()}
    for crate in (it for it in crates_of(top).values() if name in ("", it.name)):
        for it, mutants in mutants_by_function(crate, edits.get(crate.name, [])).items():
            if part in it.path and (mutants or is_public(crate, it)):
                names = [f"{'private ' * edit.is_private}{edit.name.partition('/')[2]}" for edit in mutants]
                yield f"crates/{crate.name}/{it.head[0]}:{it.head[1]}: {it.path.partition('::')[2]}: {' '.join(names) or 'none'}"
