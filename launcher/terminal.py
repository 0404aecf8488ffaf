"""What the launcher says on standard error, and how far it says that a long step is."""
import contextlib
import os
import sys
import threading
import time

# The launcher that speaks: each line of its own begins with this.
WHO = f"./{os.path.basename(sys.argv[0])}"
EVERY = 15  # seconds between two lines of progress, where no terminal shows it


def write(text):
    """Writes to standard error. A failure to write is ignored."""
    with contextlib.suppress(OSError, AttributeError):
        sys.stderr.buffer.write(os.fsencode(text))
        sys.stderr.buffer.flush()


def say(*lines):
    write(b"".join(os.fsencode(it) + b"\n" for it in lines))


def is_terminal():
    return bool(sys.stderr) and sys.stderr.isatty()


@contextlib.contextmanager
def progress(what, about=None, how_far=lambda: ""):
    """While it lasts, says how long a step has taken so far, and how far it is: each second on one line of a terminal, else each `EVERY` seconds."""
    began, ended, shows, of_about = time.monotonic(), threading.Event(), is_terminal(), f", of about {about}" if about else ""

    def tell():
        while not ended.wait(1 if shows else EVERY):
            line = f"{WHO}: {what}: {int(time.monotonic() - began)} s{of_about}{how_far()}"
            write(f"\r\033[K{line}" if shows else f"{line}\n")
        write("\r\033[K" if shows else "")

    teller = threading.Thread(target=tell, daemon=True)
    teller.start()
    try:
        yield
    finally:
        ended.set()
        teller.join()
