"""Prepares a dictionary that the program does not read as it is, and keeps it in a cache by the digest of both files."""

import contextlib
import fcntl
import hashlib
import json
import os
import shutil
import subprocess
import sys
import tempfile
import time

from . import faults
from .faults import Fault, cause_of, shown
from .own import xdg_folder
from .program import TOP

TOOLS = os.path.join(TOP, 'tools')
# What prepares: another version of it makes other entries of the cache.
PREPARING = ('prepare-dictionary', *(f'dictionary_{part}.py' for part in ('grammar', 'lines', 'mending', 'preparing', 'shrinking')))
FILES = ('aff', 'dic')
RECORD = 'made.json'
MAKING = '.making-'
LOSSY = b'# prepared with --lossy: '
OLD = 86_400
# What prepare-dictionary says if it is the disk, and not the dictionary, that stops it.
UNWRITTEN = ' cannot be written: '


def cache_folder():
    """The folder of prepared dictionaries."""
    return os.path.join(xdg_folder('XDG_CACHE_HOME', '.cache'), 'affedit')


def read(path):
    """The bytes of a file of a dictionary."""
    try:
        with open(path, 'rb') as file:
            return file.read()
    except OSError as error:
        raise Fault(faults.FILES, f'{shown(path)}: {cause_of(error)}') from None


def digest_of(data):
    return hashlib.sha256(data).hexdigest()


def key_of(base):
    """The name of a dictionary's entry in the cache."""
    pieces = [read(os.path.join(TOOLS, name)) for name in PREPARING] + [read(f'{base}.{file}') for file in FILES]
    return digest_of(' '.join(map(digest_of, pieces)).encode())


class Entry:
    """A prepared dictionary: the path of its files without `.aff`, what was changed, and what was lost."""

    def __init__(self, base, told):
        self.base, self.told = base, told
        first = read(base + '.aff').split(b'\n', 1)[0]
        self.loss = first[len(LOSSY):].decode(errors='replace') if first.startswith(LOSSY) else ''


def whole_entry(folder):
    """The entry of a folder, if both files are as they were made; else None."""
    base = os.path.join(folder, 'pair')
    try:
        with open(os.path.join(folder, RECORD), encoding='utf-8') as file:
            record = json.load(file)
        for name in FILES:
            with open(f'{base}.{name}', 'rb') as file:
                if digest_of(file.read()) != record[name]:
                    return None
        return Entry(base, [str(line) for line in record['told']])
    except (OSError, ValueError, KeyError, TypeError, Fault):
        return None


@contextlib.contextmanager
def locked(path):
    """Holds a lock while something is made. Without a file to lock the work may be done twice, and nothing else is different."""
    try:
        handle = os.open(path, os.O_RDWR | os.O_CREAT | os.O_CLOEXEC, 0o600)
    except OSError:
        yield
        return
    try:
        with contextlib.suppress(OSError):
            fcntl.flock(handle, fcntl.LOCK_EX)
        yield
    finally:
        os.close(handle)


class Cache:
    """Prepared dictionaries, in the cache or else in a temporary folder for one run."""

    def __init__(self, program):
        self.program = program
        self.folder = cache_folder()
        self.exits = contextlib.ExitStack()

    def kept(self, base):
        """The entry that the cache has of a dictionary, or None."""
        if not os.path.isdir(self.folder):
            return None
        return whole_entry(os.path.join(self.folder, key_of(base)))

    def make(self, base):
        """Prepares a dictionary: its entry, whether it is new, and why it could not be kept or None."""
        key = key_of(base)
        place = os.path.join(self.folder, key)
        reason = None
        try:
            os.makedirs(self.folder, 0o700, exist_ok=True)
        except OSError as error:
            reason = cause_of(error)
        with locked(place + '.lock'):
            # Another process may have made it meanwhile.
            entry = whole_entry(place)
            if entry:
                return entry, False, None
            if reason is None:
                try:
                    return self.made_in_cache(base, place), True, None
                except OSError as error:
                    reason = cause_of(error)
        return self.made_aside(base), True, reason

    def made_in_cache(self, base, place):
        """An entry of the cache, which is made beside and renamed. OSError if it cannot be."""
        self.remove_old()
        work = tempfile.mkdtemp(prefix=MAKING, dir=self.folder)
        try:
            self.write(base, work, True)
            if os.path.lexists(place):
                # What is there is not whole.
                os.rename(place, os.path.join(work, 'damaged'))
            os.rename(work, place)
            # The disk may be full after all.
            entry = whole_entry(place)
            if entry is None:
                raise OSError('what was written is not what is read')
            shutil.rmtree(os.path.join(place, 'damaged'), ignore_errors=True)
            return entry
        finally:
            shutil.rmtree(work, ignore_errors=True)

    def made_aside(self, base):
        """An entry in a temporary folder, for this run alone."""
        try:
            work = self.exits.enter_context(tempfile.TemporaryDirectory(prefix='affedit-check-'))
            self.write(base, work, False)
        except OSError as error:
            raise Fault(faults.OUTPUT, f'a prepared dictionary cannot be written: {cause_of(error)}') from None
        entry = whole_entry(work)
        if entry is None:
            raise Fault(faults.OUTPUT, 'a prepared dictionary cannot be written')
        return entry

    def write(self, base, work, is_kept):
        """Writes both files and their record."""
        made = os.path.join(work, 'pair')
        words = [sys.executable, os.path.join(TOOLS, 'prepare-dictionary'), '--lossy', f'{base}.aff', f'{base}.dic', made]
        environment = {**os.environ, 'AFFEDIT': self.program.path}
        done = subprocess.run(words, stdin=subprocess.DEVNULL, capture_output=True, env=environment, check=False)
        said = [line.decode(errors='surrogateescape').replace('prepare-dictionary: ', '', 1) for line in done.stderr.splitlines()]
        if done.returncode or not all(os.path.exists(f'{made}.{name}') for name in FILES):
            if any(UNWRITTEN in line for line in said):
                raise OSError(said[-1])
            raise Fault(faults.DICTIONARY, *said or ['prepare-dictionary failed'])
        record = {name: digest_of(read(f'{made}.{name}')) for name in FILES}
        record['told'] = [line.decode(errors='replace') for line in done.stdout.splitlines()[:-1]]
        with open(os.path.join(work, RECORD), 'w', encoding='utf-8') as file:
            json.dump(record, file)
            file.flush()
            os.fsync(file.fileno())
        if is_kept:
            for name in FILES:
                with open(f'{made}.{name}', 'rb') as file:
                    os.fsync(file.fileno())

    def remove_old(self):
        """Removes what processes have left that were killed."""
        for entry in os.scandir(self.folder):
            if entry.name.startswith(MAKING) and entry.stat(follow_symlinks=False).st_mtime < time.time() - OLD:
                shutil.rmtree(entry.path, ignore_errors=True)

    def close(self):
        self.exits.close()
