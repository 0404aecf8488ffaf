"""Tries edits of crates that this run has proved: in rounds, over copies of what these proofs kept."""
import os
import re
import shutil
import time

from command import ONE_JOB, rt
from edits import rounds_of, texts_of
from judging import judge_alone, judge_round
from lanes import OVER_KEPT, Task, memory_of, run_all
from rooms import OWN_WORK, fill_room
from sources import functions_of

# An answer that fails, since no function has this goal. Where one of a function's answers fails, rattle does not print what the function's proof
# file would have to say, which takes a second run of antt: in nt_front half of a round.
FAILING = "\npub no-such-goal : goal.no-such-goal\nno-such-goal c = search\n"
# A function is dear to prove whose steps, as the check wrote them out, take more bytes than these: the drop of what it owns is among them at each exit.
DEAR = 4_000_000
STEPS = re.compile(r"Rattle-\w+-proofs\.(.+)\.Lts\.oantt")


def failing_answers(crate, functions):
    """The proof files of these functions with an answer more that fails, by path, and the first of its lines. So each of these functions
    is refused: whether its edit is at fault is told by its open goals and by errors in other lines. Left out is a function that has no such file or may
    have none, as one that calls itself."""
    texts, firsts = {}, {}
    for it in functions:
        folder, name = os.path.split(it.proofs.rstrip("/"))
        path = f"{folder}/{name}/Answers.antt"
        text = crate.text(path)
        goals = ".".join(["Rattle", crate.name, *path.split("/")[:-1], "Goals"])
        others = [f"{folder}/+{name}", f"{folder}/{name}/Proof.antt"]
        if not any(os.path.exists(f"{crate.folder}/{other}") for other in others) and (not text or f"use {goals} as goal\n" in text):
            texts[path] = (text or f"use {goals} as goal\n") + FAILING
            firsts[path] = text.count("\n") + 1
    return texts, firsts


class Trial:
    """The edits of one crate, and the folder of the rooms in which they are tried. `held` has the crates that, with no edit, were seen to be
    proved over what their proofs kept. A refusal is noted in `verdicts` under the edit's sum, where these are given."""

    def __init__(self, crate, edits, rooms, progress, held=(), sums=None, verdicts=None):
        self.crate, self.edits, self.rooms, self.progress, self.held = crate, edits, rooms, progress, held
        self.sums, self.verdicts, self.refused = sums, verdicts, []
        self.kept, self.number, self.used, self.failed, self.left_out = f"{crate.folder}/out", 0, 0, [], []
        self.functions = functions_of(crate)
        for it in edits:
            it.find(self.functions)
        self.rounds = rounds_of([it for it in edits if it.changes()]) + [[it] for it in edits if not it.changes()]

    def tasks(self, after=()):
        """The check of the crate with no edit, and after it each round. The edits are left out if one of the tasks that all this comes after, such as
        the crate's proof, gave nothing."""
        memory, weight, first = OVER_KEPT * memory_of(self.crate), self.crate.lines(), (self.crate.name, "with no edit")
        tasks = {first: Task([*after], weight, memory, lambda given: all(given[it] for it in after) and self.holds(), fills=True)}
        for number, edits in enumerate(self.rounds):
            call = lambda given, edits=edits: self.tries(edits) if given[first] else self.leave(edits, all(given[it] for it in after))
            tasks[(self.crate.name, number)] = Task([first], weight * len(edits), memory, call, fills=True)
        tasks[(self.crate.name, "ended")] = Task([*tasks], 0, 0, lambda given: self.end() if given[first] else None, fills=True)
        return tasks

    def leave(self, edits, is_refuted):
        """Notes that these edits are not tried: they fail if the crate was proved, but not over what its proof kept."""
        if is_refuted:
            self.fail(edits, "")
        else:
            self.left_out += [it.name for it in edits]

    def check(self, texts, only=()):
        """Checks a copy of the crate with these texts in place of its own, or these functions of it alone."""
        self.number += 1
        room = f"{self.rooms}/{self.crate.name}.{self.number}"
        folder = fill_room(room, self.crate, self.kept)
        try:
            for path, text in texts.items():
                os.makedirs(os.path.dirname(f"{folder}/{path}"), exist_ok=True)
                with open(f"{folder}/{path}", "w", encoding="utf-8") as file:
                    file.write(text)
            with self.progress.working_on(self.crate.name):
                said = rt(folder, "check", *ONE_JOB, *(word for it in only for word in ("--only", it)))
        finally:
            shutil.rmtree(room, ignore_errors=True)
        self.used += said.of_processors
        return said

    def untold(self):
        """The edits of which nothing was told, once all ended: they fail."""
        told = {*self.failed, *self.left_out, *(it.name for it in self.refused)}
        return [it.name for it in self.edits if it.name not in told]

    def fail(self, edits, why):
        """Notes that these edits failed, and says why."""
        self.failed += [it.name for it in edits]
        if why:
            self.progress.tell(why)

    def holds(self):
        """Returns whether the crate is proved with no edit, nearly all of it taken from what its proof kept: else no edit tells anything."""
        self.files, how, is_held = files_in(f"{self.kept}/{OWN_WORK}"), "was proved", self.crate.name in self.held
        if not is_held:
            said = self.check({})
            taken, checked = said.modules(self.crate.name) or (0, 1)
            is_held = said.shows_kept(self.crate.name)
            refused = f"IS NOT PROVED, so no edit tells anything: status {said.status}, {checked} modules checked again, {taken} taken"
            how = f"is proved, {said.seconds:.0f} s" if is_held else refused
        self.progress.tell(f"{self.crate.name}: with no edit it {how}; {len(self.edits)} edits in {len(self.rounds)} rounds")
        for name, size in dear_functions(f"{self.kept}/{OWN_WORK}"):
            self.progress.tell(f"{self.crate.name}: {name} is dear to prove: its steps take {size / 1e6:.1f} MB, and 4 are the most that they should")
        return is_held

    def end(self):
        """Tells what the crate's checks took. It fails all where a round has written into a file of what was kept."""
        self.progress.tell(f"{self.crate.name}: {self.number} checks, {self.used:.0f} s of processors")
        if not self.is_untouched():
            self.refused = []
            self.fail(self.edits, f"{self.crate.name}: A ROUND WROTE INTO WHAT WAS KEPT, so no edit tells anything")

    def is_untouched(self):
        """Whether no round has written into a file of what was kept."""
        return files_in(f"{self.kept}/{OWN_WORK}") == self.files

    def refuse(self, edits):
        """Notes that these edits were refused: at once, so that a run which is killed later keeps it."""
        self.refused += edits
        for it in edits if self.verdicts and self.is_untouched() else ():
            self.verdicts.note_passed(self.sums[it])

    def tries(self, edits):
        """Tries these edits together, and then those that this does not tell. A round of one edit is a check of what it changes, too."""
        if not edits[0].changes():
            return self.try_alone(edits[0])
        texts, begun = texts_of(self.crate, edits), time.monotonic()
        answers, firsts = failing_answers(self.crate, set().union(*(it.functions for it in edits)))
        only = sorted(it.path.removeprefix(f"{self.crate.name}::") for it in set().union(*(it.changes() for it in edits)))
        said = self.check({**answers, **texts}, only)
        refused, again = judge_round(said, edits, self.functions, texts, firsts)
        self.refuse(refused)
        parts = [[it for it in edits if bool(it.laws) == of_laws] for of_laws in (True, False)]
        alone = [it for it in edits if it not in refused and it not in again]
        apart = not refused and not again and all(parts)
        rest = "those of laws are tried apart" if apart else f"{len(again)} for another round, {len(alone)} to try alone"
        self.progress.tell(f"{self.crate.name}: {len(refused)} of {len(edits)} edits of a round refused, {rest}, {time.monotonic() - begun:.0f} s")
        then = [(self.tries, it) for it in (parts if apart else [again]) if it] + [(self.try_alone, it) for it in alone if not apart]
        for call, it in then:
            call(it)

    def try_alone(self, edit):
        said = self.check(edit.texts)
        is_refused, why = judge_alone(said, edit.texts)
        self.progress.tell(f"{edit.name}: {why}, alone, {said.seconds:.0f} s")
        if is_refused:
            self.refuse([edit])
        else:
            self.failed.append(edit.name)


def uncompiled(trial, edits):
    """Those of these edits with which rattle does not read the crate, with what it says. It proves nothing. (Two that read alone can clash where they
    stand together, so what is not read is read again in halves.)"""
    said = trial.check(texts_of(trial.crate, edits), [""])
    if not said.status:
        return []
    if len(edits) == 1:
        return [(edits[0], next((it for it in said.text.split("\n") if "error" in it), "it ended with no error"))]
    half = len(edits) // 2
    return uncompiled(trial, edits[:half]) + uncompiled(trial, edits[half:])


def dear_functions(folder):
    """The functions whose steps are dear, with the bytes that they take."""
    for at, _, files in os.walk(folder):
        for file in sorted(files):
            found, size = STEPS.fullmatch(file), os.path.getsize(f"{at}/{file}")
            if found and size > DEAR:
                yield found[1], size


def files_in(folder):
    """The size and the time of the last change of each file of kept work, but of the one by which it is noted when it was used."""
    paths = [f"{at}/{file}" for at, _, files in os.walk(folder) for file in files if file != "rattle-last-used"]
    return {it: (os.stat(it).st_size, os.stat(it).st_mtime_ns) for it in paths}


def try_edits(chosen, rooms, progress, held=(), at_once=None):
    """Tries these edits, by crate, and returns the names of those that failed. Of the crates that are `held`, what the proof kept was seen to serve."""
    progress.of, tasks = "checks", {}
    trials = [Trial(crate, edits, rooms, progress, held) for crate, edits in chosen.items()]
    for it in trials:
        tasks.update(it.tasks())
    progress.total = len(tasks) - len(trials)
    run_all(tasks, at_once)
    return [name for it in trials for name in [*it.failed, *it.untold()]]
