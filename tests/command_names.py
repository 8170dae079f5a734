"""Names of dictionaries, and several dictionaries at once."""

import os

from command_runs import SAMPLE, write


def pair(folder, name, words, aff='SET UTF-8\n'):
    write(folder, name + '.aff', aff)
    write(folder, name + '.dic', '\n'.join([str(len(words.split())), *words.split()]) + '\n')


def lettered(number):
    """A word for a number."""
    return 'w' + str(number).translate(str.maketrans('0123456789', 'abcdefghij'))


def test_search(tester):
    """Where names are looked for."""
    first, second, home = tester.folder(), tester.folder(), tester.folder()
    pair(first, 'aa_BB', 'one')
    pair(second, 'aa_BB', 'two')
    pair(second, 'cc', 'three')
    pair(os.path.join(home, '.local/share/affedit'), 'dd', 'four')
    office = os.path.join(home, '.config/libreoffice/4/user/uno_packages/cache/uno_packages/x_/some.oxt')
    pair(os.path.join(office, 'dictionaries'), 'ee', 'five')
    pair(office, 'ff', 'six')
    write(second, 'med.dic', '1\nbone\n')
    write(second, 'lone.aff', '')
    env = tester.environment(DICPATH=f'{first}:{second}', HOME=home)

    def judged(what, words, wanted, **more):
        return tester.ends(what, wanted, [*words, '-l'], env={**env, **more}, given=b'one two three four five six')

    judged('the first folder of DICPATH', ['-d', 'aa_BB'], (1, 'two\nthree\nfour\nfive\nsix\n'))
    judged('the second one', ['-d', 'cc'], (1, 'one\ntwo\nfour\nfive\nsix\n'))
    judged('the folder of plugins', ['-d', 'dd'], (1, 'one\ntwo\nthree\nfive\nsix\n'))
    judged('an extension of LibreOffice', ['-d', 'ee,ff'], (1, 'one\ntwo\nthree\nfour\n'))
    judged('a path', ['-d', os.path.join(second, 'aa_BB')], (1, 'one\nthree\nfour\nfive\nsix\n'))
    judged('a path of a file', ['-d', os.path.join(second, 'aa_BB.aff')], (1, 'one\nthree\nfour\nfive\nsix\n'))
    judged('AFFEDIT_LANG', [], (1, 'one\ntwo\nfour\nfive\nsix\n'), AFFEDIT_LANG='cc', LC_ALL='aa_BB.UTF-8')
    judged('the locale', [], (1, 'two\nthree\nfour\nfive\nsix\n'), LC_ALL='aa_BB.UTF-8')
    judged('the language of the locale', [], (1, 'one\ntwo\nfour\nfive\nsix\n'), LC_ALL='', LANG='cc_DD.UTF-8@x')
    for what, words, cause in (('no language', [], 'the locale has no language'), ('no such name', ['-d', 'zz'], 'no dictionary zz: there are')):
        said = judged(what, words, (5, ''))
        tester.holds(what, cause, said)
        # The machine may have dictionaries of its own.
        names = said.rstrip('\n').partition('there are ')[2].split(', ')
        tester.same(f'{what}: the names', (sorted(names), True), (names, {'aa_BB', 'cc', 'dd', 'ee', 'ff'} <= set(names)))
    tester.holds('a list that extends', 'only extends another', judged('a list that extends', ['-d', 'med'], (5, '')))
    tester.holds('half a pair', 'lone.dic is not there', judged('half a pair', ['-d', os.path.join(second, 'lone')], (5, '')))
    judged('an empty name', ['-d', 'cc,'], (2, ''))
    status, output, _ = tester.run(['-D'], env=env)
    rows = dict(line.split('\t') for line in output.decode().splitlines())
    tester.same('-D', (0, os.path.join(first, 'aa_BB.aff'), os.path.join(second, 'cc.aff'), True),
                (status, rows.get('aa_BB'), rows.get('cc'), 'lone' not in rows and 'med' not in rows and {'dd', 'ee', 'ff'} <= set(rows)))


def test_several(tester):
    """A word is marked if no dictionary has it. The first one cuts."""
    folder = tester.folder()
    pair(folder, 'a', 'one foo-bar', 'SET UTF-8\nWORDCHARS -\nBREAK 0\n')
    pair(folder, 'b', 'two foo baz')
    pair(folder, 'c', 'three', 'SET UTF-8\nFORBIDDENWORD X\n')
    pair(folder, 'large', ' '.join(lettered(number) for number in range(3)))
    write(folder, 'own', 'mine\n*one\n')
    text = b'one two three teh foo-bar foo-baz baz-teh Two\nteh mine\n'

    def judged(what, wanted, *words):
        tester.ends(what, (1, wanted), [*words], folder=folder, given=text)

    judged('two dictionaries', 'three\nteh\nbaz-teh\nteh\nmine\n', '-d', './a,./b', '-l')
    judged('three dictionaries', '<stdin>:1:15: teh\n<stdin>:1:35: baz-teh\n<stdin>:2:1: teh\n<stdin>:2:5: mine\n', '-d', './a,./b,./c')
    judged('the other way round', 'three\nteh\nbar\nteh\nteh\nmine\n', '-d', './b,./a', '-l')
    judged('own words count for all', 'one\nthree\nteh\nbaz-teh\nteh\n', '-d', './a,./b', '-p', 'own', '-l')
    judged('one twice', 'two\nthree\nteh\nfoo-baz\nbaz-teh\nTwo\nteh\nmine\n', '-d', './a,./a', '-l')
    # More words than a text may have lines.
    many = '\n'.join(map(lettered, range(50_000))).encode()
    status, output, _ = tester.run(['-d', './a,./large', '-l'], folder=folder, given=many)
    tester.same('many words', (1, 49_997, b'wd'), (status, output.count(b'\n'), output.split(b'\n', 1)[0]))


def test(tester):
    test_search(tester)
    test_several(tester)
    tester.ends('a name with .dic', (1, 'citys\n'), ['-d', SAMPLE + '.dic', '-l', SAMPLE + '.txt'])
