"""The program that is tested, which the script `program` beside this file finds."""

import os
import subprocess

SCRIPT = os.path.join(os.path.dirname(os.path.realpath(__file__)), 'program')


def found():
    """The path of the program; None if there is none, which standard error then says."""
    done = subprocess.run([SCRIPT], stdout=subprocess.PIPE, text=True, check=False)
    return done.stdout.removesuffix('\n') if done.returncode == 0 else None
