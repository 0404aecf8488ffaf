"""What a check says of the edits that stand in a crate."""
import re
import sys

from sources import function_at

# A goal of the function that stands at this place, an error at a place, and the line of a function.
GOAL = re.compile(r"note: (?:\./)?(src/\S+?):(\d+):\d+: it is not proved that")
ERROR = re.compile(r"(?:\./)?((?:src|specs|proofs)/\S+?):(\d+):\d+: error")
FUNCTION = re.compile(r"fn (\S+): (?:not proved|no proof)")
# The line of a function whose goals may not have been tried, since a callee of it is not proved.
WAITING = re.compile(r"fn (\S+): (?:not proved|no proof)[:;] it calls `")
# The line that ends a check of some functions alone, and what is said where a library's kept work cannot be used.
ONLY = re.compile(r"^only=\d+ proved=\d+$", re.M)
STALE = re.compile(r"module .Rattle-(\w+)-.*Run the lower steps again")
# A proof file that names what an edit took away, and what cites that proof.
NAMES = re.compile(r"(?:note: )?(?:\./)?proofs/.*(has no field|is not in scope|has no `|was not admitted|which w[a-z]* rejected)")
UNKNOWN = re.compile(r"is not in scope|has no field|is no name|operand is missing|expected the end|cannot continue")
# What is said of an edit that is refused, but not since a contract is broken.
LITTLE = "says little of the contract"


def is_unread(line, texts):
    """Whether this line says that a text of src/, specs/ or an edited file could not be read: an edit that only makes a statement false reads well."""
    at = re.match(r"(?:\./)?(\S+?):\d+:\d+: error: (?:(`[^`]*`): )?(.*)", line)
    if not at or at[1] not in texts and not at[1].startswith(("src/", "specs/")):
        return False
    return not at[2] or bool(UNKNOWN.search(re.sub(r"`[^`]*`", "", at[3])))


def at_fault(said, functions, firsts):
    """The functions with an open goal or a proof file of their own at fault, those whose text is, and whether there was no other fault.
    Lines of proof files from these on are not theirs."""
    blamed, unread, is_all = set(), set(), True
    for line in said.split("\n"):
        goal, error = GOAL.match(line), ERROR.match(line)
        if goal:
            here = [function_at(functions, goal[1], int(goal[2]))]
        elif not error or NAMES.match(line) or int(error[2]) >= firsts.get(error[1], sys.maxsize):
            continue
        elif error[1].startswith("src/"):
            unread.add(function_at(functions, error[1], int(error[2])))
            continue
        else:
            # (the proof of a function that calls itself stands in a folder +NAME)
            path = error[1].replace("/+", "/")
            here = [it for it in functions if path.startswith(it.proofs)]
        blamed.update(here)
        is_all = is_all and bool(here)
    return blamed, unread, is_all


def judge_round(said, edits, functions, texts, firsts):
    """Those of a round's edits that are refused, and those for which another round may tell more, by what its check said."""
    changed_ones = set().union(*(it.changes() for it in edits))
    blamed, unread, is_all = at_fault(said.text, functions, firsts)
    failed, waiting = {*FUNCTION.findall(said.text)}, {*WAITING.findall(said.text)}
    lines = said.text.split("\n")
    is_told = said.status == 1 and ONLY.search(said.text) and not STALE.search(said.text)
    if not is_told or any(is_unread(it, texts) for it in lines):
        others = [it for it in edits if not it.functions & unread]
        return [], others if len(others) < len(edits) else []
    if any(it.laws for it in edits):
        # (what a law cites can be at fault in any lemma, so it must be told of the functions that nothing else failed)
        is_all = failed - waiting <= {it.path for it in changed_ones} and not any(re.match(r"(\./)?specs/.*error", it) for it in lines)
    if not is_all or not blamed <= changed_ones:
        return [], []
    refused = [it for it in edits if any(fn.path in failed and (fn in blamed or it.laws) for fn in it.changes())]
    others = [it for it in edits if it not in refused and any(fn.path in waiting for fn in it.functions)]
    return refused, others if refused else []


def judge_alone(said, texts):
    """Whether an edit that stands alone in its crate is refused, and what to say, by what its check said."""
    lines = said.text.rstrip("\n").split("\n")
    unread = next((it for it in lines if is_unread(it, texts)), "")
    if said.status == 0:
        return False, "NOT REFUSED: the crate is still proved with this edit, so a contract of it is too weak, or the edit means the same as before"
    if said.status == 1 and unread:
        return False, f"BAD EDIT: the prover cannot read the edited text: {unread[:200]}"
    if said.status == 1 and said.last_line().get("logic") == "not-proved" and not STALE.search(said.text):
        told = [it for it in lines if re.match(r"(note: )?\S+:\d+:\d+:", it) and (": error" in it or it.startswith("note: "))]
        first = next((it for it in told if not NAMES.match(it)), "")
        if told and not first:
            return True, f"refused only because a proof file names what the edit took away, so this {LITTLE}: keep the names: {told[0][:160]}"
        if not re.search("it is not proved|: error", first):
            return True, f"refused, but no goal is told, as the prover could not write the proof of what the edit made, so this {LITTLE}"
        return True, f"refused: {first[:120]}"
    if said.status == 1 and re.search(r"\berror\[[\w-]+\]", said.text):
        return False, "\n".join(["BAD EDIT: it did not reach the prover:", *[it for it in lines if "error" in it][:4]])
    how = "was killed" if said.was_killed else "came to a limit of the prover" if said.status == 3 else f"ended with status {said.status}"
    return False, "\n".join([f"NOT TRIED: its check {how}, so nothing is known of it", *lines[-4:]])
