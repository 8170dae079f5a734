"""Finds dictionaries by their names."""

import glob
import os

from .faults import FILES, WORDS, Fault, shown
from .own import xdg_folder

# The folders of hunspell(1), Debian, Fedora, Arch and macOS.
SHARED = ('/usr/local/share/hunspell', '/usr/share/hunspell', '/usr/share/myspell', '/usr/share/myspell/dicts',
          '/Library/Spelling', '/opt/homebrew/share/hunspell')
# The folders of LibreOffice and its extensions, as patterns.
OFFICE = ('/usr/lib/libreoffice/share/extensions/dict-*', '/usr/lib64/libreoffice/share/extensions/dict-*',
          '/opt/libreoffice*/share/extensions/dict-*')
EXTENSIONS = 'libreoffice/4/user/uno_packages/cache/uno_packages/*/*'


def folders():
    """The folders in which a name is looked for, in this order, each once. Only those that are there."""
    found = [folder for folder in os.environ.get('DICPATH', '').split(os.pathsep) if folder]
    found.append(os.path.join(xdg_folder('XDG_DATA_HOME', '.local/share'), 'affedit'))
    found += SHARED
    found.append(os.path.join(os.path.expanduser('~'), 'Library/Spelling'))
    config = xdg_folder('XDG_CONFIG_HOME', '.config')
    for pattern in (*OFFICE, os.path.join(glob.escape(config), EXTENSIONS)):
        for folder in sorted(glob.glob(pattern)):
            found += [folder, os.path.join(folder, 'dictionaries')]
    return [folder for folder in dict.fromkeys(found) if os.path.isdir(folder)]


def is_pair(base):
    """Whether both files of a dictionary are there."""
    return os.path.isfile(base + '.aff') and os.path.isfile(base + '.dic')


def names():
    """All names that are found, with the paths of their files without `.aff`."""
    found = {}
    for folder in folders():
        try:
            entries = sorted(entry for entry in os.listdir(folder) if entry.endswith('.aff'))
        except OSError:
            continue
        for entry in entries:
            base = os.path.join(folder, entry[:-4])
            if is_pair(base):
                found.setdefault(entry[:-4], base)
    return dict(sorted(found.items()))


def find(name):
    """The path of a dictionary without `.aff`: `name` is a name, or a path with a slash."""
    stem = name[:-4] if name.endswith(('.aff', '.dic')) else name
    if '/' in stem:
        if is_pair(stem):
            return stem
        there = [end for end in ('.aff', '.dic') if os.path.isfile(stem + end)]
        lacks = f'{shown(stem)}{".dic" if there == [".aff"] else ".aff"} is not there'
        raise Fault(FILES, f'no dictionary {shown(name)}: {lacks}')
    bases = [os.path.join(folder, stem) for folder in folders()] if stem else []
    for base in bases:
        if is_pair(base):
            return base
    for base in bases:
        if os.path.isfile(base + '.dic'):
            raise Fault(FILES, f'no dictionary {shown(name)}: {shown(base)}.dic has no .aff beside it, and only extends another dictionary')
    raise Fault(FILES, f'no dictionary {shown(name)}: {there_are()}')


def there_are():
    """What a name could have been."""
    found = list(names())
    if not found:
        return f'there is none in {", ".join(map(shown, folders())) or "any folder of dictionaries"}'
    return f'there are {", ".join(map(shown, found))}'


def absolute(base):
    """The path of a dictionary from the root on, which is no option. The program takes names of files that are UTF-8."""
    path = os.path.abspath(base)
    try:
        path.encode()
    except UnicodeEncodeError:
        raise Fault(FILES, f'the path of the dictionary {shown(path)} is not UTF-8') from None
    return path


def locale_names():
    """The names that a locale could have, the best first."""
    value = next(filter(None, map(os.environ.get, ('LC_ALL', 'LC_MESSAGES', 'LANG'))), '')
    value = value.split('.')[0].split('@')[0]
    if value in ('', 'C', 'POSIX'):
        return []
    return [value, value.replace('_', '-'), value.split('_')[0]]


def chosen(named):
    """The names and paths of the dictionaries that are named, or else of $AFFEDIT_LANG or the locale."""
    named = named if named is not None else os.environ.get('AFFEDIT_LANG') or None
    if named is not None:
        wanted = named.split(',')
        if not all(wanted):
            raise Fault(WORDS, f'-d {shown(named)}: a name is empty')
        return [(os.path.basename(name), absolute(find(name))) for name in dict.fromkeys(wanted)]
    there = names()
    tried = locale_names()
    for name in tried:
        if name in there:
            return [(name, absolute(there[name]))]
    cause = f'the locale {shown(tried[0])} has none' if tried else 'the locale has no language'
    raise Fault(FILES, f'no dictionary: {cause}. Name one with -d NAME or AFFEDIT_LANG: {there_are()}')
