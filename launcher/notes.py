"""What is said of a transcript on a terminal once it is whole: what its refusals are called, and what tells more of a wait that never ended."""
import os
import re
import threading

from running import write_all

TOP = os.path.dirname(os.path.dirname(os.path.realpath(__file__)))

REFUSED = re.compile(rb"(\d+): error (\d+)\n?")
PENDING = re.compile(rb"end: pending((?: t\d+)+)\n?")
# So many refusals are named.
MOST = 20


def refusals():
    """The name of each number after `error`, and what it says, by the table of docs/WIN32.md."""
    with open(f"{TOP}/docs/WIN32.md", encoding="utf-8") as page:
        rows = re.findall(r"(?m)^\| (\d+) [^|]*\| `?(\w+)`? \| (.*) \|$", page.read())
    return {int(number): (name, means) for number, name, means in rows}


class Notes:
    """Hands on to standard output what the program writes, and notes what is to be said of it."""

    def __init__(self):
        self.refusals, self.more, self.pending, self.last, self.failed = [], 0, "", b"", False

    def begin(self, source):
        self.hands_on = threading.Thread(target=self.hand_on, args=(source,), daemon=True)
        self.hands_on.start()

    def end(self):
        """Waits until all is handed on, and answers whether it was."""
        self.hands_on.join()
        return not self.failed

    def hand_on(self, source):
        with source:
            while part := os.read(source.fileno(), 1 << 16):
                if not write_all(part):
                    # The program's next write fails, as this one did.
                    self.failed = True
                    return
                *lines, self.last = (self.last + part).split(b"\n")
                for line in lines:
                    self.note(line)

    def note(self, line):
        refused = REFUSED.fullmatch(line)
        if refused and len(self.refusals) < MOST:
            self.refusals.append((int(refused[1]), int(refused[2])))
        elif refused:
            self.more += 1
        pending = PENDING.fullmatch(line)
        if pending:
            self.pending = pending[1].decode().strip()

    def lines(self, name):
        """What is said of the transcript of the script with this name."""
        names = refusals() if self.refusals else {}
        for number, refusal in self.refusals:
            called, means = names.get(refusal, ("a refusal", "docs/WIN32.md has the numbers"))
            yield f"{name}:{number}: error {refusal}, {called}: {means}"
        if self.more:
            yield f"./ntrun: {self.more} more refusals; docs/WIN32.md has the numbers"
        if self.pending and os.access(f"{TOP}/ntlook", os.X_OK):
            yield f"./ntrun: still waiting at the end: {self.pending}; ./ntlook why {name} tells for what"
