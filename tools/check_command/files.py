"""Finds the files to check, and reads them."""

import fnmatch
import os
import stat

from .faults import FILES, NOT_UTF8, cause_of, shown
from .own import NAME as OWN_NAME
from .texts import MARK

INPUT = '<stdin>'
WIDE = (b'\xff\xfe', b'\xfe\xff')


class Files:
    """The files that are named, and those of folders. What cannot be read is told, and the others go on."""

    def __init__(self, settings, teller, stream):
        self.settings, self.teller, self.stream = settings, teller, stream

    def each(self, names):
        """The name, the folder and the bytes of each file in turn."""
        for name in names or ['-']:
            if name in ('-', '/dev/stdin'):
                yield from self.read_input()
            elif not self.is_excluded(name):
                yield from self.named(name)

    def is_excluded(self, path):
        """Whether a pattern of --exclude fits the name of a file, or its path."""
        path = path.rstrip('/')
        base = os.path.basename(path)
        path = os.path.normpath(path)
        return any(fnmatch.fnmatchcase(base, glob) or fnmatch.fnmatchcase(path, glob) for glob in self.settings.excluded)

    def tell(self, path, cause, status=FILES):
        self.teller.fault(status, f'{shown(path)}: {cause}')

    def named(self, path):
        """A file that is named on the command line, or all of a folder. Links are followed, and a pipe is read."""
        try:
            mode = os.stat(path)
        except (OSError, ValueError) as error:
            self.tell(path, cause_of(error))
            return
        if stat.S_ISDIR(mode.st_mode):
            yield from self.walk(path)
        elif stat.S_ISREG(mode.st_mode) or stat.S_ISFIFO(mode.st_mode) or is_null(mode):
            yield from self.read(path, False)
        else:
            self.tell(path, 'is no file, but a device or a socket')

    def walk(self, folder):
        """All files of a folder, by their names. Links, devices and pipes in it are passed over."""
        waiting = [folder]
        while waiting:
            path = waiting.pop()
            if path is None or not isinstance(path, tuple):
                waiting.extend(self.entries(path))
            else:
                yield from self.read(path[0], True)

    def entries(self, folder):
        """What a folder has, from the last to the first: a file is a tuple of its path, a folder its path."""
        try:
            with os.scandir(folder) as found:
                entries = sorted(found, key=lambda entry: entry.name, reverse=True)
        except OSError as error:
            self.tell(folder, cause_of(error))
            return
        for entry in entries:
            path = os.path.join(folder, entry.name)
            if self.is_passed_over(entry.name) or self.is_excluded(path):
                continue
            try:
                if entry.is_dir(follow_symlinks=False):
                    yield path
                elif entry.is_file(follow_symlinks=False):
                    yield (path,)
            except OSError as error:
                self.tell(path, cause_of(error))

    def is_passed_over(self, name):
        return name in ('.git', OWN_NAME) or (name.startswith('.') and not self.settings.hidden)

    def read(self, path, is_walked):
        """A file, if it can be read and is a text."""
        try:
            # A file may have become a pipe meanwhile: a walk does not wait for its writer.
            with open(path, 'rb', opener=without_waiting if is_walked else None) as file:
                data = file.read()
        except (OSError, ValueError) as error:
            self.tell(path, cause_of(error))
            return
        if self.is_text(path, data, is_walked):
            yield path, os.path.dirname(path), data

    def read_input(self):
        """Standard input."""
        try:
            if self.stream is None:
                raise OSError('standard input is closed')
            data = self.stream.read()
        except (OSError, ValueError) as error:
            self.tell(INPUT, cause_of(error) if isinstance(error, OSError) else 'standard input is closed')
            return
        if self.is_text(INPUT, data, False):
            yield INPUT, '', data

    def is_text(self, path, data, is_walked):
        """Whether bytes are UTF-8. Binary files of a folder are passed over, others are told."""
        if data.startswith(WIDE):
            self.tell(path, 'not UTF-8, but UTF-16 or another encoding of its kind', NOT_UTF8)
            return False
        if is_walked and b'\0' in data:
            return False
        try:
            data.decode()
            return True
        except UnicodeDecodeError as error:
            line = data.count(b'\n', 0, error.start) + 1
            self.tell(f'{path}:{line}', f'not UTF-8: the byte 0x{data[error.start]:02x}', NOT_UTF8)
            return False


def without_waiting(path, flags):
    return os.open(path, flags | os.O_NONBLOCK)


def is_null(mode):
    """Whether a device is /dev/null, which is an empty file."""
    try:
        return stat.S_ISCHR(mode.st_mode) and mode.st_rdev == os.stat(os.devnull).st_rdev
    except OSError:
        return False


def without_mark(data):
    """The bytes of a file without a byte order mark at the start, which is of no line."""
    return data[len(MARK):] if data.startswith(MARK) else data
