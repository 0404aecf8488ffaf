"""What is told while a step works: a line for each thing that ended, and on a terminal a line with what is under way and how far it is."""
import contextlib
import sys
import threading
import time

# How often the line on a terminal is written again, in seconds.
PAUSE = 2


class Progress:
    """How far a step is. `of` is what it counts, as in `7 of 25 crates`."""

    def __init__(self, of="", total=0, out=sys.stdout):
        self.of, self.total, self.done, self.under_way, self.out = of, total, 0, {}, out
        self.begun, self.lock, self.shown = time.monotonic(), threading.Lock(), False
        self.head = ""

    def tell(self, text):
        """Prints whole lines."""
        with self.lock:
            self.wipe()
            print(text, file=self.out, flush=True)

    @contextlib.contextmanager
    def working_on(self, name):
        with self.lock:
            self.under_way[name] = time.monotonic()
        try:
            yield
        finally:
            with self.lock:
                self.under_way.pop(name, None)
                self.done += 1

    def line(self):
        """What is under way, within 110 columns."""
        now = time.monotonic()
        parts = [f"{self.done} of {self.total} {self.of}"] if self.total else []
        parts += [f"{name} {now - begun:.0f} s" for name, begun in self.under_way.items()]
        text = f"  {self.head}{now - self.begun:.0f} s: {', '.join(parts)}" if parts else f"  {self.head}{now - self.begun:.0f} s"
        return text[:110]

    def wipe(self):
        if self.shown:
            print("\r\x1b[K", end="", file=self.out)
            self.shown = False

    @contextlib.contextmanager
    def on_terminal(self):
        """Writes the line again and again while the block runs, where the output is a terminal."""
        ended = threading.Event()

        def write():
            while self.out.isatty() and not ended.wait(PAUSE):
                with self.lock:
                    print(f"\r\x1b[K{self.line()}", end="", file=self.out, flush=True)
                    self.shown = True

        writer = threading.Thread(target=write, daemon=True)
        writer.start()
        try:
            yield self
        finally:
            ended.set()
            writer.join()
            with self.lock:
                self.wipe()
