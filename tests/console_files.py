"""The files of the dictionaries that random dialogues load, good and bad ones, and the words that their texts are made of."""

import os

LARGEST = 16_777_216

AFFIXES = """SET UTF-8
TRY esianrtolc
ICONV 1
ICONV ’ '
NOSUGGEST !
COMPOUNDMIN 1
ONLYINCOMPOUND c
COMPOUNDRULE 2
COMPOUNDRULE n*1t
COMPOUNDRULE n*mp
WORDCHARS 0123456789
PFX A Y 1
PFX A 0 re .
SFX B Y 2
SFX B 0 ed [^y]
SFX B y ied y
SFX M Y 1
SFX M 0 's .
"""
ENTRIES = '10\nhello/M\ntry/B\nwork/AB\nParis\nnaïve\n0/nm\n1/n1\n1st/p\n1th/tc\nday/M\n'

COMPOUNDS = """SET UTF-8
COMPOUNDFLAG X
COMPOUNDMIN 2
CHECKCOMPOUNDDUP
CHECKCOMPOUNDTRIPLE
FORBIDDENWORD Z
KEEPCASE K
WORDCHARS -
BREAK 1
BREAK -
SFX S Y 1
SFX S 0 s .
"""
COMPOUND_ENTRIES = '10\nfoo/X\nbar/XS\nbars/Z\nox/X\nhello\nkg/K\nwork/XS\nstraße/X\nfoobarox/Z\nÄrger\n'

# Words of three stems take a while by these rules, of which none joins them.
RULES = 400
STEMS = [first + second + third for first in ('ba', 'de', 'gi', 'ko', 'lu') for second in ('me', 'no', 'ra') for third in ('ti', 'fu')]

# Pairs that are loaded.
GOOD = [(b'a.aff', b'a.dic'), (b'b.aff', b'b.dic'), (b'rules.aff', b'rules.dic'), (b'with\ttab.aff', b'a.dic')]
# The first faults of files, whatever stands beside them, but for an .aff file with a fault.
BAD_AFF = {b'bad.aff': b'no aff 1 OtherEncoding', b'short.aff': b'no aff 2 TableShort'}
BAD_DIC = {b'bad.dic': b'no dic 1 BadCount', b'bytes.dic': b'no dic 2 NotUtf8'}
BAD_FILES = {b'none': b'no Missing', b'large': b'no Large 16777216', b'folder': b'no Files'}

# Words that a dictionary has, words that none has, and what may stand between them.
WORDS = ['hello', 'Hello', 'HELLO', 'hello’s', "day's", 'tried', 'tryed', 'retry', 'rework', 'reworked', 'worked', 'wurk', 'paris',
         'Paris', 'naïve', 'naive', 'NAÏVE', '1st', '11th', '1th', '42', 'foobar', 'foofoo', 'fooox', 'bars', 'Bars', 'foo-bar', '-foo',
         'kg', 'Kg', 'straße', 'STRASSE', 'Straßebar', 'ärger', 'Ärger', 'foobarox', 'jig', 'jiged', 'rejig', 'e\u0301', '日本', 'слово',
         'x', '😀', 'ﬁn']
GAPS = [' '] * 12 + ['  ', ', ', '. ', '\t', ' - ', '-', '/', '…', '\u00a0', '\u2028', '\x85', '\x00', '\r', '\x1b', '\ufeff', "'", '’',
                     '']
# Lines of personal lists.
ITEMS = [b'wurk', b'*hello', b'jig/work', b'jig/try', b'  paris  ', b'*Paris', b'e\xcc\x81', b'x/none', b'a\\/b', b'/', b'//work', b'*/',
         b'*foo/bar', b'*Paris/', b'foobarox', b'*bar', b'jiged', b'two words', b'\tx', '日本'.encode(), b'*' + '日本'.encode()]
BLANK_ITEMS = [b'', b' ', b'\t', b' \t ']
EMPTY_ITEMS = [b'*', b' * ', b'x/', b'//', b' x/ ']


def rules():
    """An .aff file of rules that each have the flag of all stems, and others that no entry but one has."""
    lines = ['SET UTF-8', 'FLAG num', f'COMPOUNDRULE {RULES}']
    lines += [f'COMPOUNDRULE (1)({2 + k % 7})*({3 + k % 5})' for k in range(RULES)]
    return '\n'.join(lines) + '\n'


def write_all(folder):
    """Writes all files into a folder."""
    texts = {'a.aff': AFFIXES, 'a.dic': ENTRIES, 'b.aff': COMPOUNDS, 'b.dic': COMPOUND_ENTRIES, 'with\ttab.aff': AFFIXES,
             'rules.aff': rules(), 'rules.dic': f'{len(STEMS) + 1}\nhello/2,3,4,5,6,7,8\n' + ''.join(f'{stem}/1\n' for stem in STEMS),
             'bad.aff': 'SET ISO8859-1\n', 'short.aff': 'SET UTF-8\nSFX A Y 3\nSFX A 0 s .\nSFX A 0 t .\n',
             'bad.dic': 'hello\n', 'bytes.dic': '1\nh\udcffllo\n'}
    for name, text in texts.items():
        with open(os.path.join(folder, name), 'w', encoding='utf-8', errors='surrogateescape', newline='') as file:
            file.write(text)
    with open(os.path.join(folder, 'large'), 'wb') as file:
        file.truncate(LARGEST + 1)
    os.mkdir(os.path.join(folder, 'folder'))


def fault_of(aff, dic):
    """What is replied to a pair that is not loaded; None for one that is."""
    if aff in BAD_AFF or aff in BAD_FILES:
        return BAD_AFF.get(aff) or BAD_FILES[aff]
    if dic in BAD_FILES or dic in BAD_DIC:
        return BAD_FILES.get(dic) or BAD_DIC[dic]
    if (aff, dic) not in GOOD:
        raise ValueError(f'it is not known what comes of {aff!r} {dic!r}')
    return None
