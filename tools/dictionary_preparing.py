"""Prepares a pair of files for prepare-dictionary and lint-dictionary: reads it, mends it, has the program read the result, and writes it."""

import gc
import os
import stat
import subprocess
import tempfile
import time

import dictionary_grammar as grammar
from check_command.progress import Progress
from dictionary_grammar import Refused
from dictionary_mending import prepare

HERE = os.path.dirname(os.path.realpath(__file__))
PROGRAM = os.environ.get('AFFEDIT') or os.path.join(os.path.dirname(HERE), 'affedit')
# What is wrong with a file is told by these tools, and not by the launcher too.
QUIET = {**os.environ, 'AFFEDIT_QUIET': '1'}
# No encoding makes a file so much smaller that more than this could become small enough.
INPUT_MOST = 4 * grammar.FILE_MOST
READ = '0 of 0'
SLOW = 1.0


class Fault(Refused):
    """A line of what was made that the program does not read: its file, cause, number and text in what was read."""

    def __init__(self, path, file, number, cause, text):
        super().__init__(f'{path}:{number}: {cause} cannot be mended: `{text[:100]}`')
        self.file, self.number, self.cause, self.text = file, number, cause, text


class Steps(Progress):
    """Says after a second what is done at present, and for how long."""

    def __init__(self, stream):
        super().__init__(stream, SLOW)
        self.step = ''

    def text(self):
        return f'{self.step}, {time.monotonic() - self.begun:.0f} s'


def without_search():
    """Has Python search for no cycles: a third of the time goes into that, and lines are in none."""
    gc.disable()


def read(path):
    """The bytes of a file that may be one of a dictionary."""
    try:
        mode = os.stat(path).st_mode
        if stat.S_ISDIR(mode):
            raise Refused(f'{path} is a folder')
        if not stat.S_ISREG(mode):
            raise Refused(f'{path} is not a regular file')
        with open(path, 'rb') as file:
            data = file.read(INPUT_MOST + 1)
    except FileNotFoundError:
        raise Refused(f'{path} is not there') from None
    except OSError as error:
        raise Refused(f'{path} cannot be read: {error.strerror}') from None
    if len(data) > INPUT_MOST:
        raise Refused(f'{path} has more than {INPUT_MOST:,} bytes, and {grammar.FILE_MOST:,} may be read')
    place = data.find(b'\0')
    if place >= 0:
        line = data.count(b'\n', 0, place) + 1
        raise Refused(f'{path}:{line}: a byte 0, which no text has')
    return data


def check(aff, dic, own=None, text=b''):
    """What the program says of a dictionary, a personal list and a text."""
    words = [PROGRAM, 'check', aff, dic, '/dev/stdin', *(['--own', own] if own is not None else [])]
    done = subprocess.run(words, input=text, stdout=subprocess.PIPE, env=QUIET, check=False)
    if done.returncode == 125:
        raise Refused('there is no program to check a dictionary')
    return done.stdout.decode(errors='replace').strip()


def fault_of(said, prepared, names):
    """The refusal for what the program says of a pair that was made."""
    words = said.split()
    if len(words) != 3 or words[0] not in prepared.files:
        return Refused(f'what was made is not read: {said}')
    file, place, cause = words[0], int(words[1]) - 1, words[2]
    text = prepared.files[file].decode().split('\n')[place]
    return Fault(names[file], file, prepared.number_of(file, place), cause, text)


class Output:
    """Both files of OUT, which are written beside it and renamed in the end."""

    def __init__(self, out):
        self.paths = {'aff': out + '.aff', 'dic': out + '.dic'}
        self.made = {}

    def refuse_inputs(self, inputs):
        if not os.path.basename(self.paths['aff'].removesuffix('.aff')):
            raise Refused(f'{self.paths["aff"].removesuffix(".aff")} names no file')
        for path in self.paths.values():
            if os.path.isdir(path):
                raise Refused(f'{path} is a folder')
            if any(os.path.exists(path) and os.path.samefile(path, read_from) for read_from in inputs):
                raise Refused(f'{path} is one of the files that are read')

    def write(self, files):
        folder = os.path.dirname(self.paths['aff']) or '.'
        mask = os.umask(0)
        os.umask(mask)
        try:
            for file, data in files.items():
                handle, self.made[file] = tempfile.mkstemp(f'.{file}', '.prepare-', folder)
                with open(handle, 'wb') as made:
                    made.write(data)
                os.chmod(self.made[file], 0o666 & ~mask)
        except OSError as error:
            raise Refused(f'{folder} cannot be written: {error.strerror}') from None

    def keep(self):
        try:
            for file in ('dic', 'aff'):
                os.replace(self.made[file], self.paths[file])
                del self.made[file]
        except OSError as error:
            raise Refused(f'{self.paths[file]} cannot be written: {error.strerror}') from None

    def clear(self):
        for path in self.made.values():
            if os.path.exists(path):
                os.unlink(path)


def make(data, names, output, steps):
    """Mends both files and writes them beside OUT. Raises Refused where the program does not read what was made."""
    steps.step = f'mending {names["aff"]} and {names["dic"]}'
    prepared = prepare(data['aff'], data['dic'])
    output.write(prepared.files)
    steps.step = 'checking what was made'
    said = check(output.made['aff'], output.made['dic'])
    if said != READ:
        raise fault_of(said, prepared, names)
    return prepared
