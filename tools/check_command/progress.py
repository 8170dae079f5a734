"""A line at a terminal that says how far a long run is."""

import contextlib
import os
import threading
import time

OFTEN = 0.5


class Progress:
    """A line on standard error, if that is a terminal and the run takes longer than SLOW seconds. `text` says what it shows."""

    def __init__(self, stream, slow):
        self.stream, self.slow = stream, slow
        self.is_terminal = stream is not None and stream.isatty() and os.environ.get('TERM', '') not in ('', 'dumb')
        self.begun = time.monotonic()
        self.is_shown = False
        # Held while anything is printed, so that the line never stands in the midst of it.
        self.lock = threading.RLock()
        self.ended = threading.Event()

    def text(self):
        """How far the run is."""
        raise NotImplementedError

    def start(self):
        """Begins to show the line, from a thread beside."""
        if self.is_terminal:
            threading.Thread(target=self.show, daemon=True).start()

    def show(self):
        """Shows the line until the run ends."""
        while not self.ended.wait(OFTEN):
            if time.monotonic() - self.begun > self.slow:
                with self.lock:
                    if not self.ended.is_set():
                        self.is_shown = True
                        self.write(f'\r{self.text()}\x1b[K')

    @contextlib.contextmanager
    def paused(self):
        """Takes the line away while something else is printed."""
        with self.lock:
            if self.is_shown:
                self.is_shown = False
                self.write('\r\x1b[K')
            yield

    def stop(self):
        """Takes the line away for good."""
        self.ended.set()
        with self.paused():
            return

    def write(self, text):
        try:
            self.stream.write(text.encode(errors='surrogateescape'))
            self.stream.flush()
        except (OSError, ValueError):
            self.ended.set()
