"""What the tests of tools/affedit-check share: folders, runs of the command and of the program, and what differs."""

import os
import shutil
import subprocess
import tempfile

TOP = os.path.dirname(os.path.dirname(os.path.realpath(__file__)))
COMMAND = os.path.join(TOP, 'tools', 'affedit-check')
SAMPLE = os.path.join(TOP, 'examples', 'sample')


def program():
    """The path of the program: that of $AFFEDIT, or the one that the launcher runs, which builds it if it is missing."""
    named = os.environ.get('AFFEDIT')
    if named:
        return named
    launcher, built = os.path.join(TOP, 'affedit'), os.path.join(TOP, 'out', 'affedit')
    env = {'PATH': os.environ.get('PATH') or '/usr/bin:/bin', 'AFFEDIT_QUIET': '1'}
    subprocess.run([launcher, 'make', '1', '1'], stdin=subprocess.DEVNULL, stdout=subprocess.DEVNULL, env=env, check=False)
    return built if os.path.exists(built) else launcher


PROGRAM = program()


class Tester:
    """Counts what differs, and has a folder for files, whose path has a space."""

    def __init__(self):
        self.failed = 0
        self.top = tempfile.mkdtemp(prefix='affedit check ')
        self.count = 0
        self.home = self.folder()

    def folder(self):
        """A new folder."""
        self.count += 1
        path = os.path.join(self.top, f'{self.count} of')
        os.mkdir(path)
        return path

    def environment(self, **more):
        """The environment of a run: nothing of that of the tests. None takes a variable out."""
        found = {'PATH': '/usr/bin:/bin', 'HOME': self.home, 'LC_ALL': 'C.UTF-8', 'TMPDIR': self.top, 'AFFEDIT': PROGRAM, **more}
        return {name: value for name, value in found.items() if value is not None}

    def run(self, words, folder=None, given=b'', env=None, **more):
        """The status, output and errors of the command."""
        more.setdefault('stdout', subprocess.PIPE)
        done = subprocess.run([COMMAND, *words], cwd=folder or self.top, input=given, stderr=subprocess.PIPE, env=env or self.environment(),
                              check=False, **more)
        return done.returncode, done.stdout, done.stderr

    def same(self, what, wanted, found):
        """Prints what differs from what is wanted."""
        if wanted != found:
            self.failed += 1
            print(f'{what}:\n    wanted {wanted!r}\n    found  {found!r}')

    def ends(self, what, wanted, words, **more):
        """Runs the command, and looks at its status and output."""
        status, output, errors = self.run(words, **more)
        self.same(what, wanted, (status, output.decode()))
        return errors.decode(errors='replace')

    def holds(self, what, part, text):
        """Looks for a part of a text."""
        if part not in text:
            self.failed += 1
            print(f'{what}:\n    {part!r} is not in {text!r}')

    def close(self):
        for folder, names, _ in os.walk(self.top):
            for name in names:
                path = os.path.join(folder, name)
                if not os.path.islink(path):
                    os.chmod(path, 0o700)
        shutil.rmtree(self.top)


def write(folder, name, data):
    """Writes a file, and the folders that it stands in."""
    path = os.path.join(os.fsencode(folder), os.fsencode(name))
    os.makedirs(os.path.dirname(path), exist_ok=True)
    with open(path, 'wb') as file:
        file.write(data.encode() if isinstance(data, str) else data)
    return path


def checked(aff, dic, path, own=None):
    """What the program says of a file alone: its status, the LINE, START, END and WORD of each mark, and its last line."""
    words = [PROGRAM, 'check', aff, dic, path, *(['--own', own] if own else [])]
    env = {'PATH': '/usr/bin:/bin', 'AFFEDIT_QUIET': '1'}
    done = subprocess.run(words, stdin=subprocess.DEVNULL, stdout=subprocess.PIPE, env=env, check=False)
    lines = done.stdout.decode().split('\n')
    marks = []
    for line in lines[:-2]:
        number, start, end, word = line.split(' ')
        marks.append((int(number), int(start), int(end), word))
    return done.returncode, marks, lines[-2]
