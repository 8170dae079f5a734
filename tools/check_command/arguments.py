"""The words of the command line."""

import getopt

from .faults import WORDS, Fault, shown

HELP = """\
affedit-check [-d NAME[,NAME..]] [-p OWN] [OPTION..] [FILE..]
Marks words that a Hunspell dictionary does not have, as FILE:LINE:COLUMN: WORD.
A FILE may be a folder; `-` or none is standard input. Files are UTF-8.
  -d NAME[,NAME..]  the dictionary, or several: one of them has to have the word.
                    A name, or a path with a slash. Else $AFFEDIT_LANG or the locale
  -D                list the dictionaries that are found, with their paths
  -p OWN            a list of own words. Else .affedit-words of the file's folder and
                    of all above, and $XDG_CONFIG_HOME/affedit/words
  --add WORD        append WORD to the nearest of these lists
  --format FORMAT   text, json (a line a mark) or github (annotations)
  -l                print the words alone
  --count           print how many marks each file has, and the total
  --all             check addresses, paths and e-mail addresses too, and in .md files
                    code and the targets of links
  --hidden          check hidden files and folders too
  --exclude GLOB    pass over files and folders with such a name or path
  --help, --version
Exit status: 0 no marks, 1 marks. 2 the command line is wrong, 3 a dictionary or
list is refused, 4 a file is not UTF-8, 5 a file is missing or cannot be read,
6 output failed, 7 out of memory, 8 a run without blanks is too long, 125 no program.
Example: affedit-check -d en_US README.md docs      The manual: man affedit-check
"""
FORMATS = ('text', 'json', 'github')
SHORT = 'd:p:Dlh'
LONG = ['format=', 'count', 'all', 'hidden', 'exclude=', 'add=', 'help', 'version']


class Settings:
    """What the command line asks for."""

    def __init__(self):
        self.dictionaries, self.own, self.format = None, None, None
        self.added, self.excluded, self.files = [], [], []
        self.takes_all, self.hidden = False, False
        # One of `check`, `list`, `help` and `version`.
        self.action = 'check'

    def take(self, option, value):
        """Takes an option."""
        if option in ('-d', '-p'):
            if not value:
                raise Fault(WORDS, f'{option} is followed by an empty name')
            setattr(self, 'dictionaries' if option == '-d' else 'own', value)
        elif option in ('--add', '--exclude'):
            (self.added if option == '--add' else self.excluded).append(value)
        elif option in ('--format', '-l', '--count'):
            self.take_format(value if option == '--format' else option.strip('-'), option)
        elif option == '--all':
            self.takes_all = True
        elif option == '--hidden':
            self.hidden = True
        else:
            self.action = {'-D': 'list', '-h': 'help', '--help': 'help', '--version': 'version'}[option]

    def take_format(self, name, option):
        if option == '--format' and name not in FORMATS:
            raise Fault(WORDS, f'--format {shown(name)}: the formats are {", ".join(FORMATS)}')
        if self.format not in (None, name):
            raise Fault(WORDS, f'{option}: another form of output is asked for too')
        self.format = name


def settings_of(words):
    """What some words ask for."""
    try:
        options, files = getopt.gnu_getopt(words, SHORT, LONG)
    except getopt.GetoptError as error:
        raise Fault(WORDS, shown(error.msg), 'affedit-check --help lists the options') from None
    settings = Settings()
    for option, value in options:
        settings.take(option, value)
    settings.files = files
    if settings.action == 'list' and (files or settings.added):
        raise Fault(WORDS, '-D lists dictionaries, and checks no file')
    return settings
