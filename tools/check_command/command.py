"""What the command does, from its words to its exit status."""

import contextlib
import os
import signal
import subprocess
import sys

from . import faults, own
from .arguments import HELP, settings_of
from .checking import Checking
from .dictionaries import chosen, folders, names
from .faults import Fault, Teller, cause_of, shown
from .files import Files
from .preparing import Cache
from .printing import CountPrinter, GithubPrinter, JsonPrinter, Printer, WordPrinter
from .program import Program, path_of_program
from .signals import ENDING
from .speller import Dictionary, Speller
from .terminal import FileProgress, TerminalPrinter

PRINTERS = {'json': JsonPrinter, 'github': GithubPrinter, 'l': WordPrinter, 'count': CountPrinter}


class OutputEnded(Exception):
    """Standard output takes no more. The status is that of the error, or 0 if nobody reads on."""

    def __init__(self, status, cause=''):
        super().__init__(status, cause)
        self.status, self.cause = status, cause


class Output:
    """Standard output, whose errors are told apart from those of files."""

    def __init__(self, stream):
        self.stream = stream
        self.isatty = stream.isatty if stream is not None else lambda: False

    def write(self, data):
        self.attempt(lambda stream: stream.write(data))

    def flush(self):
        self.attempt(lambda stream: stream.flush())

    def attempt(self, action):
        if self.stream is None:
            raise OutputEnded(faults.OUTPUT, 'standard output is closed')
        try:
            action(self.stream)
        except BrokenPipeError:
            raise OutputEnded(0) from None
        except OSError as error:
            raise OutputEnded(faults.OUTPUT, f'standard output: {cause_of(error)}') from None


def printer_of(name, output):
    """What prints marks in a format."""
    kind = PRINTERS.get(name) or (TerminalPrinter if output.isatty() and name is None else Printer)
    return kind(output)


def list_dictionaries(output):
    """Prints the names that are found, each with its path."""
    found = names()
    for name, base in found.items():
        output.write(os.fsencode(f'{shown(name, False)}\t{shown(base, False)}.aff\n'))
    output.flush()
    if not found:
        raise Fault(faults.FILES, f'no dictionaries are found in {", ".join(map(shown, folders())) or "any folder"}')


def print_version(output):
    """Prints what the program was made of."""
    try:
        done = subprocess.run([path_of_program(), '--version'], stdin=subprocess.DEVNULL, stdout=subprocess.PIPE, check=False)
    except OSError as error:
        raise Fault(faults.NO_PROGRAM, f'{shown(path_of_program())} cannot be run: {cause_of(error)}') from None
    output.write(done.stdout)
    output.flush()


def add_words(settings, teller):
    """Appends words to the nearest list."""
    path, new = own.add(settings.added, settings.own)
    for word in settings.added:
        line = own.checked_line(word)
        teller.say(f'{shown(line)}: {"added to" if line in new else "stands already in"} {shown(path)}')


def check(settings, teller, progress, printer, stream):
    """Checks all files, and prints their marks."""
    with contextlib.ExitStack() as exits:
        program = Program()
        lists = own.Lists(settings.own)
        exits.callback(lists.close)
        cache = Cache(program)
        exits.callback(cache.close)
        if settings.own is not None:
            lists.lines(settings.own)
        dictionaries = [Dictionary(name, base, program, cache, teller) for name, base in chosen(settings.dictionaries)]
        checking = Checking(Speller(dictionaries, lists), lists, teller, progress, settings.takes_all)
        files = Files(settings, teller, stream)
        progress.start()
        exits.callback(progress.stop)
        for file in checking.run(files.each(settings.files)):
            if file.marks:
                with progress.paused():
                    printer.file(file)
        progress.stop()
        printer.end(checking.words)


def act(settings, teller, progress, output, stream):
    """Does what is asked for. The number of marks comes back by the printer."""
    if settings.action == 'help':
        output.write(HELP.encode())
        output.flush()
    elif settings.action == 'version':
        print_version(output)
    elif settings.action == 'list':
        list_dictionaries(output)
    elif settings.added:
        add_words(settings, teller)
    if settings.action != 'check' or (settings.added and not settings.files):
        return 0
    printer = printer_of(settings.format, output)
    try:
        check(settings, teller, progress, printer, stream)
    except OutputEnded as ended:
        if ended.cause:
            teller.fault(ended.status, ended.cause)
        abandon(output)
    return faults.MARKED if printer.marks else 0


def abandon(output):
    """What Python still holds of standard output is not written when it ends."""
    with contextlib.suppress(OSError, AttributeError, ValueError):
        null = os.open(os.devnull, os.O_WRONLY)
        os.dup2(null, output.stream.fileno())
        os.close(null)


def run(words):
    """The exit status of a command line."""
    error = getattr(sys.stderr, 'buffer', None)
    output = Output(getattr(sys.stdout, 'buffer', None))
    progress = FileProgress(error)
    teller = Teller(error, progress)
    marked = 0
    try:
        marked = act(settings_of(words), teller, progress, output, getattr(sys.stdin, 'buffer', None))
    except Fault as fault:
        for line in fault.lines:
            teller.fault(fault.status, line)
    except OutputEnded as ended:
        if ended.cause:
            teller.fault(ended.status, ended.cause)
        abandon(output)
    except MemoryError:
        teller.fault(faults.MEMORY, 'memory ran out')
    return max(teller.status, marked)


def main():
    """Runs the command of this process."""
    ENDING.install()
    try:
        sys.exit(run(sys.argv[1:]))
    except KeyboardInterrupt:
        signal.signal(signal.SIGINT, signal.SIG_DFL)
        os.kill(os.getpid(), signal.SIGINT)
