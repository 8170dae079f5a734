"""Talks to the program: over pipes to `edit`, and by one run for many texts to `check`."""

import collections
import contextlib
import os
import subprocess
import threading
import time

from console_model import MARK, Wrong

ONE_CHECK = 20_000


def shortened(line):
    return repr(line) if len(line) < 200 else f'{line[:150]!r} and {len(line) - 150} bytes'


class Talk:
    """One run of the program. Replies are counted as they come. Where none comes for so many seconds as the limit says, it is ended."""

    def __init__(self, words, folder, limit):
        self.sent = bytearray()
        self.lines, self.replies, self.in_show, self.has_closed = [], 0, False, False
        self.changed = threading.Condition()
        self.limit, self.is_late, self.moved = limit, False, time.monotonic()
        with open(os.path.join(folder, 'stderr'), 'wb') as stderr:
            self.process = subprocess.Popen(words, cwd=folder, stdin=subprocess.PIPE, stdout=subprocess.PIPE, stderr=stderr)
        # A program that reads no more would have `send` wait for ever, and one that does not end `end`.
        self.has_ended = threading.Event()
        self.watch = threading.Thread(target=self.watch_for_late, daemon=True)
        self.watch.start()
        self.reader = threading.Thread(target=self.read)
        self.reader.start()

    def watch_for_late(self):
        while not self.has_ended.wait(0.1):
            if time.monotonic() - self.moved > self.limit:
                self.is_late = True
                self.process.kill()
                return

    def read(self):
        """Takes in what the program writes, up to its end."""
        rest = b''
        while data := os.read(self.process.stdout.fileno(), 1 << 16):
            *lines, rest = (rest + data).split(b'\n')
            self.moved = time.monotonic()
            with self.changed:
                for line in lines:
                    self.take(line)
                self.changed.notify_all()
        with self.changed:
            if rest:
                self.take(rest + b' without a line feed')
            self.has_closed = True
            self.changed.notify_all()

    def take(self, line):
        self.lines.append(line)
        self.in_show = line != b'.' if self.in_show else line.startswith(b'text ')
        self.replies += not self.in_show

    def send(self, data):
        """Sends bytes. A program that has ended takes none, which is seen by the replies that are missing."""
        self.sent += data
        with contextlib.suppress(BrokenPipeError):
            self.process.stdin.write(data)
            self.process.stdin.flush()
            self.moved = time.monotonic()

    def wait(self, count):
        """Waits until so many replies have come, or none can come any more. Gives the number of lines that have come."""
        with self.changed:
            self.changed.wait_for(lambda: self.replies >= count or self.has_closed)
            if self.is_late:
                raise Wrong(f'only {self.replies} replies, {count} were due, and none came for {self.limit:g} s')
            return len(self.lines)

    def end(self):
        """Closes the input, and gives what the program ended with."""
        with contextlib.suppress(BrokenPipeError):
            self.process.stdin.close()
        self.reader.join()
        status = self.process.wait()
        if self.is_late:
            raise Wrong(f'not ended, and silent for {self.limit:g} s')
        return status

    def stop(self):
        """Ends the program where it is still there."""
        self.has_ended.set()
        self.watch.join()
        self.process.kill()
        with contextlib.suppress(BrokenPipeError):
            self.process.stdin.close()
        self.reader.join()
        self.process.wait()
        self.process.stdout.close()


class Output:
    """The lines that the program has written, to be compared from the first to the last."""

    def __init__(self, lines, seen):
        self.lines, self.place, self.line, self.seen = lines, 0, None, seen

    def is_next(self, line):
        return self.place < len(self.lines) and self.lines[self.place] == line

    def expect(self, *wanted):
        """Takes the next line, which has to be one of these."""
        said = self.lines[self.place] if self.place < len(self.lines) else None
        if said not in wanted:
            number, line = self.line
            came = 'nothing' if said is None else shortened(said)
            raise Wrong(f'to line {number} of the input, {shortened(line)}: line {self.place + 1} of the output should be '
                        f'{" or ".join(map(shortened, wanted))}, and is {came}')
        self.place += 1
        if said != b'.' and not said[:1].isdigit():
            self.seen[self.kind_of(said)] += 1
        return said

    def expect_end(self):
        if self.place != len(self.lines):
            raise Wrong(f'behind the last reply: {shortened(self.lines[self.place])}')

    @staticmethod
    def kind_of(said):
        words = said.decode().split(' ')
        return {'no': ' '.join(words[:2]), 'text': 'shows'}.get(words[0], words[0])


class Marks:
    """What `check` prints of texts, by dictionaries. Each text is asked of once by each."""

    def __init__(self, program, folder):
        self.program, self.folder, self.known, self.runs = program, folder, {}, 0

    def of(self, dictionary, text):
        """The marks of one text, each as `S E WORD`."""
        if text not in self.known.get(dictionary, ()):
            self.learn(dictionary, [text])
        return self.known[dictionary][text]

    def learn(self, dictionary, texts):
        """Has all these texts checked by the dictionary."""
        known = self.known.setdefault(dictionary, {})
        missing = [text for text in texts if text not in known]
        for start in range(0, len(missing), ONE_CHECK):
            part = missing[start:start + ONE_CHECK]
            known.update(zip(part, self.check(dictionary, part)))

    def check(self, dictionary, texts):
        """Runs `check` on a document of these lines. A mark at its start and a carriage return in each are dropped."""
        self.write('document', b''.join(text + b'\r\n' for text in texts))
        self.write('items', dictionary.own)
        words = [self.program, 'check', dictionary.aff, dictionary.dic, 'document', '--own', 'items']
        done = subprocess.run(words, cwd=self.folder, stdout=subprocess.PIPE, check=False)
        self.runs += 1
        *lines, summary = done.stdout.removesuffix(b'\n').split(b'\n')
        if done.returncode != bool(lines) or summary.split(b' ')[0] != b'%d' % len(lines):
            raise Wrong(f'`check` ended with {done.returncode} and {shortened(summary)}')
        marks = collections.defaultdict(list)
        for line in lines:
            place, mark = line.split(b' ', 1)
            marks[int(place)].append(mark)
        return [marks[place] for place in range(1, len(texts) + 1)]

    def write(self, name, content):
        with open(os.path.join(self.folder, name), 'wb') as file:
            file.write(MARK + content)
