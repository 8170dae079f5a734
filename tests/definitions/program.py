"""Where the program is."""

import os
import subprocess
import tempfile

TOP = os.path.dirname(os.path.dirname(os.path.dirname(os.path.realpath(__file__))))


class NoProgram(Exception):
    """There is no program to run."""


def program_of():
    """The path of the program. It is the one that the variable PROGRAM names; else the one that tests/program prints, where that is
    there; else one that was built here; else the one in dist."""
    if os.environ.get('PROGRAM'):
        return os.environ['PROGRAM']
    script = os.path.join(TOP, 'tests', 'program')
    if os.path.exists(script):
        done = subprocess.run([script], stdout=subprocess.PIPE, text=True, check=False)
        path = done.stdout.strip().split('\n')[-1]
        if done.returncode == 0 and os.access(path, os.X_OK):
            return path
    for path in (os.path.join(TOP, 'out', 'affedit'), os.path.join(TOP, 'dist', 'affedit')):
        if os.access(path, os.X_OK):
            return path
    raise NoProgram('definitions: there is no program: build it by ./affedit, or name it by PROGRAM=PATH')


class Program:
    """The program, over files in a folder of its own."""

    def __init__(self, path):
        self.path = os.path.abspath(path)
        self.folder = tempfile.TemporaryDirectory(prefix='definitions-')

    def put(self, name, data):
        """Writes a file."""
        with open(os.path.join(self.folder.name, name), 'wb') as file:
            file.write(data)

    def run(self, *words, given=b''):
        """What it prints, and its status."""
        try:
            done = subprocess.run([self.path, *words], cwd=self.folder.name, input=given, stdout=subprocess.PIPE, stderr=subprocess.DEVNULL,
                                  check=False, timeout=120)
        except subprocess.TimeoutExpired:
            return 'no end within 120 s\n', -1
        return done.stdout.decode('utf-8', 'replace'), done.returncode
