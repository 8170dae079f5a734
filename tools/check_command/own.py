"""Lists of own words: those that are named, those of folders, and that of the user."""

import fcntl
import os
import tempfile

from . import faults
from .faults import Fault, cause_of, shown

NAME = '.affedit-words'
FILE_MOST = 16_777_216
CAUSES = os.path.join(os.path.dirname(os.path.dirname(os.path.realpath(__file__))), 'launcher', 'causes')


def xdg_folder(variable, usual):
    """A folder of the user by the rules of XDG: a relative one does not count."""
    named = os.environ.get(variable, '')
    return named if os.path.isabs(named) else os.path.join(os.path.expanduser('~'), usual)


def user_list():
    """The path of the user's list."""
    return os.path.join(xdg_folder('XDG_CONFIG_HOME', '.config'), 'affedit', 'words')


def words_of_cause(cause):
    """What a cause of a personal list says to people."""
    try:
        with open(CAUSES, encoding='utf-8') as file:
            rows = [line.rstrip('\n').split('\t') for line in file]
    except OSError:
        return cause
    return next((row[2] for row in rows if row[:2] == ['own', cause]), cause)


def lists_above(folder):
    """The lists of a folder and of all above it, the nearest first."""
    found = []
    while True:
        path = os.path.join(folder, NAME)
        if os.path.isfile(path):
            found.append(path)
        above = os.path.dirname(folder)
        if above == folder:
            return found
        folder = above


class Lists:
    """Which lists count for a folder, and each set of lists as one file, which the program reads."""

    def __init__(self, named):
        self.named = named
        self.folders, self.data, self.made = {}, {}, {}
        self.work = None

    def of(self, folder):
        """The paths of the lists that count for the files of a folder, the nearest first."""
        if self.named is not None:
            return (self.named,)
        found = self.folders.get(folder)
        if found is None:
            paths = lists_above(os.path.abspath(folder))
            if os.path.isfile(user_list()):
                paths.append(user_list())
            found = self.folders[folder] = tuple(path for path in dict.fromkeys(paths) if self.lines(path))
        return found

    def lines(self, path):
        """The bytes of a list, with a line feed at its end."""
        if path not in self.data:
            try:
                with open(path, 'rb') as file:
                    data = file.read(FILE_MOST + 1)
            except OSError as error:
                raise Fault(faults.FILES, f'{shown(path)}: {cause_of(error)}') from None
            if len(data) > FILE_MOST:
                raise Fault(faults.LIMIT, f'{shown(path)}: a list of more than {FILE_MOST:,} bytes')
            data = data[3:] if data.startswith(b'\xef\xbb\xbf') else data
            self.data[path] = data + b'\n' if data and not data.endswith(b'\n') else data
        return self.data[path]

    def file(self, paths):
        """The path of a file with the lines of these lists; None if they have none."""
        if not any(self.lines(path) for path in paths):
            return None
        if paths not in self.made:
            try:
                if self.work is None:
                    self.work = tempfile.TemporaryDirectory(prefix='affedit-check-')
                made = os.path.join(self.work.name, f'own-{len(self.made)}')
                with open(made, 'wb') as file:
                    file.writelines(self.lines(path) for path in paths)
            except OSError as error:
                raise Fault(faults.OUTPUT, f'the own words cannot be put together: {cause_of(error)}') from None
            self.made[paths] = made
        return self.made[paths]

    def fault(self, paths, said):
        """The fault of a list by what the program says of the file with all lines, `own LINE CAUSE`."""
        _, number, cause = said.split()
        line = int(number)
        for path in paths:
            count = self.lines(path).count(b'\n')
            if line <= count:
                return Fault(faults.DICTIONARY, f'{shown(path)}:{line}: {words_of_cause(cause)}')
            line -= count
        return Fault(faults.DICTIONARY, f'the own words: {words_of_cause(cause)}')

    def close(self):
        if self.work is not None:
            self.work.cleanup()


def nearest_list(named):
    """The list that --add writes to: the one that is named, the nearest one upwards, or the user's."""
    return named or next(iter(lists_above(os.getcwd())), None) or user_list()


def checked_line(word):
    """A word as a line of a list."""
    line = word.strip(' \t')
    try:
        line.encode()
    except UnicodeEncodeError:
        raise Fault(faults.WORDS, f'--add: the word {shown(word)} is not UTF-8') from None
    body = line[1:] if line.startswith('*') else line
    slash = body.replace('\\/', '__').find('/', 1)
    if not body or '\n' in line or '\r' in line or (0 < slash == len(body) - 1):
        raise Fault(faults.WORDS, f'--add: `{shown(word)}` is no line of a list of words')
    return line


def add(words, named):
    """Appends words to a list, a line each, and returns its path and the words that it had not."""
    lines = [checked_line(word) for word in words]
    path = nearest_list(named)
    try:
        if named is None and path == user_list():
            os.makedirs(os.path.dirname(path), exist_ok=True)
        with open(path, 'a+b') as file:
            fcntl.flock(file, fcntl.LOCK_EX)
            file.seek(0)
            data = file.read()
            there = set(data.decode(errors='replace').splitlines())
            new = [line for line in dict.fromkeys(lines) if line not in there]
            if new:
                ended = b'' if not data or data.endswith(b'\n') else b'\n'
                file.write(ended + ''.join(f'{line}\n' for line in new).encode())
    except OSError as error:
        raise Fault(faults.FILES, f'{shown(path)}: {cause_of(error)}') from None
    return path, new
