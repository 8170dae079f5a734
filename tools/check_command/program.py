"""Runs `affedit check` on a text, and reads what it prints."""

import os
import subprocess
import threading

from .faults import FILES, LIMIT, MEMORY, NO_PROGRAM, Fault
from .signals import ENDING

TOP = os.path.dirname(os.path.dirname(os.path.dirname(os.path.realpath(__file__))))
# Threads take long to start beside what a short text takes.
SHORT = 1 << 18
WORKERS_MOST = 4


def path_of_program():
    """The program or its launcher: that of $AFFEDIT, or the one beside the folder of tools."""
    return os.environ.get('AFFEDIT') or os.path.join(TOP, 'affedit')


def processors():
    """The number of processors that this process may use."""
    try:
        return len(os.sched_getaffinity(0))
    except AttributeError:
        return os.cpu_count() or 1


class Answer:
    """What `check` printed: its status, its last line, and the lines of marks before it."""

    def __init__(self, status, output):
        lines = output.split(b'\n')
        self.status = status
        self.said = lines[-2].decode(errors='replace') if len(lines) > 1 else ''
        self.lines = lines[:-2]

    def marks(self):
        """PARAGRAPH, START and END of each mark. Paragraphs count from 1, bytes from 0."""
        for line in self.lines:
            number, start, end, _ = line.split(b' ', 3)
            yield int(number), int(start), int(end)

    def words(self):
        """How many words the text has."""
        return int(self.said.split()[-1])


class Program:
    """The program `affedit`."""

    def __init__(self):
        self.path = path_of_program()
        self.workers = min(WORKERS_MOST, processors())
        # The reason is said here, and not by the launcher too.
        self.environment = {**os.environ, 'AFFEDIT_QUIET': '1'}

    def check(self, aff, dic, text, own=None):
        """The answer to a text, which is given as standard input."""
        words = [self.path, 'check', aff, dic, '/dev/stdin']
        if len(text) > SHORT and self.workers > 1:
            words += ['--workers', str(self.workers)]
        if own is not None:
            words += ['--own', own]
        status, output = self.run(words, text)
        answer = Answer(status, output)
        if status in (0, 1) and answer.said.split()[1:2] == ['of']:
            return answer
        if status in (3, 8):
            return answer
        raise self.failure(status, answer.said)

    def run(self, words, text):
        """The status and the output of the program. Its input is written while its output is read."""
        process = feeder = None
        try:
            # A signal in the midst of Popen would leave the program running, known to nobody.
            with ENDING.held():
                process = self.started(words)
                feeder = feeder_of(process.stdin, text)
            output = process.stdout.read()
            return process.wait(), output
        finally:
            if process is not None:
                if process.poll() is None:
                    process.kill()
                    process.wait()
                if feeder is not None:
                    feeder.join()
                process.stdout.close()

    def started(self, words):
        """The program as a process that has just begun."""
        try:
            return subprocess.Popen(words, stdin=subprocess.PIPE, stdout=subprocess.PIPE, env=self.environment)
        except OSError as error:
            raise Fault(NO_PROGRAM, f'{self.path} cannot be run: {error.strerror}') from None

    @staticmethod
    def failure(status, said):
        """The fault for an end that is not expected."""
        if status == 5:
            return Fault(FILES, 'a file of the dictionary is not there' if said == 'missing' else 'a file of the dictionary cannot be read')
        if status == 7:
            return Fault(MEMORY, 'memory ran out')
        if status == 125:
            return Fault(NO_PROGRAM, 'there is no program to run')
        ended = f'signal {-status}' if status < 0 else f'status {status}'
        return Fault(status if 1 < status < 125 else LIMIT, f'the program ended with {ended}: {said}')


def feeder_of(stream, text):
    """A thread that writes a text."""
    feeder = threading.Thread(target=feed, args=(stream, text), daemon=True)
    feeder.start()
    return feeder


def feed(stream, text):
    """Writes a text. A program that refuses its dictionary does not read it."""
    try:
        stream.write(text)
        stream.close()
    except OSError:
        try:
            stream.close()
        except OSError:
            return
