"""Ends the command at SIGINT and SIGTERM, but never between the start of a child and the moment at which it is known."""

import contextlib
import signal
import sys


class Ending:
    """How signals end the command: at once or, while they are held, right after that."""

    def __init__(self):
        self.is_held = False
        self.noted = None

    def install(self):
        """Handles both signals, but not a SIGINT that is ignored."""
        signal.signal(signal.SIGTERM, self.take)
        if signal.getsignal(signal.SIGINT) is not signal.SIG_IGN:
            signal.signal(signal.SIGINT, self.take)

    def take(self, number, _):
        """The handler of both signals. The first one that comes while they are held is noted."""
        if not self.is_held:
            end_by(number)
        elif self.noted is None:
            self.noted = number

    @contextlib.contextmanager
    def held(self):
        """Holds signals. One that came meanwhile raises its exception behind the block, whether the block failed or not."""
        self.is_held = True
        try:
            yield
        finally:
            self.is_held = False
            if self.noted is not None:
                end_by(self.noted)


def end_by(number):
    """Raises what ends the command by a signal."""
    if number == signal.SIGINT:
        raise KeyboardInterrupt
    sys.exit(128 + number)


ENDING = Ending()
