#!/usr/bin/env python3
"""Tests tools/affedit-check by the program as it is built: tests/check_command.py [TREES].

So many random trees of files, or 300, have the marks that `affedit check` finds in each file alone. The others test formats, filters, own
words, names of dictionaries, the cache, the ways to end, completion and the hook for git. $AFFEDIT names another program than the launcher.
Prints what differs, and what is skipped; the status is 1 if anything differs.
"""

import sys

sys.dont_write_bytecode = True

import command_cache  # noqa: E402
import command_ends  # noqa: E402
import command_extras  # noqa: E402
import command_formats  # noqa: E402
import command_lists  # noqa: E402
import command_names  # noqa: E402
import command_prose  # noqa: E402
import command_trees  # noqa: E402
from command_runs import Tester  # noqa: E402


def main(words):
    count = int(words[0]) if words else 300
    tester = Tester()
    try:
        for part in (command_formats, command_prose, command_lists, command_names, command_cache, command_ends, command_extras):
            part.test(tester)
        command_trees.test(tester, count)
    finally:
        tester.close()
    print(f'{count} trees, {tester.failed} differences')
    return 1 if tester.failed else 0


if __name__ == '__main__':
    sys.exit(main(sys.argv[1:]))
