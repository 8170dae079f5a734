#!/usr/bin/env bash
# Makes the worst dictionaries and words that we know of by the rules of hunspell(5), in a folder of its own: words of one hash, homonyms, flags and
# classes in falling order, aliases of many flags that many rules carry, rules that leave many stems, patterns and replacements of joints, rows of
# REP, BREAK and ICONV, compound rules, pairs of sharp s in capitals, compounds of short parts, and words of the most characters. Each is checked by
# `check` as one text. Then `edit` is asked of its words one by one, and the processor time of each is read from Linux. Prints a row for each: the
# bytes of its two files, the seconds of the processor for the load and for the slowest word, a star where that is more than 10 milliseconds, and the
# most memory. With the word `small` the dictionaries are small ones. Other words name rows: those are run in which one of them stands.
# Ends with status 1 where a run takes longer than 60 seconds of the processor, or ends otherwise than with 0 or 1 and a last line `M of W`; other cases go on.
# Needs Python 3.
set -euo pipefail
top=$(cd "$(dirname "$0")/.." && pwd)
work=$(mktemp -d)
trap 'rm -rf "$work"' EXIT
# The launcher builds the program where it is missing; the program itself is measured.
"$top/affedit" make 1 1 > /dev/null || [ $? -eq 1 ]

cat > "$work/hostile.py" << 'PYTHON'
import itertools
import os
import re
import resource
import select
import signal
import subprocess
import sys
import time

work, program, is_small, only = sys.argv[1], sys.argv[2], 'small' in sys.argv[3:], [word for word in sys.argv[3:] if word != 'small']
# Seconds of the processor that one load or one word may take, and `check` all words; so many times that may pass beside other work.
LIMIT, BESIDE, SLOW = 60, 10, 0.010
# How a key of a word is made of its characters: crates/entry_table/src/hashed.rt.
FACTOR, BITS = 0x9E37_79B9_7F4A_7C15, 64


def size(large, small):
    return small if is_small else large


def table(name, rows):
    return [f'{name} {len(rows)}', *(f'{name} {row}' for row in rows)]


def rules(kind, flag, rows, cross='Y'):
    return [f'{kind} {flag} {cross} {len(rows)}', *(f'{kind} {flag} {row}' for row in rows)]


def syllables(number, count):
    """A word of so many syllables, another one for each number below 50 ** count."""
    made = ''
    for _ in range(count):
        number, digit = divmod(number, 50)
        made += 'bdfgklmnrt'[digit // 5] + 'aeiou'[digit % 5]
    return made


# Of each row the sum of row[i] * FACTOR ** i is 0 in 64 bits: a reduced basis of these, by Lenstra, Lenstra and Lovasz.
VECTORS = [
    (107, 13, 58, 69, 130, -83, 166, 32), (-97, -61, 136, -53, 212, -58, 20, -55), (-97, 23, 0, 158, 63, -16, -73, -142),
    (84, -52, 75, 62, -107, -51, -180, -87), (77, -28, 98, 131, 17, 162, 87, -132), (-83, 46, 162, 29, -61, -114, -125, 102),
    (67, 224, 62, -99, 8, 72, -82, -56), (-192, 115, 1, -58, -26, -162, 138, -156)]


def of_one_hash(count):
    """So many words of one hash, of eight characters of Chinese each."""
    words = []
    for times in itertools.product(range(8), repeat=8):
        # The last character has the power 0.
        points = [0x7000 + sum(time * vector[place] for time, vector in zip(times, VECTORS)) for place in range(7, -1, -1)]
        if all(0x4E00 <= point <= 0x9FFF for point in points):
            words.append(''.join(map(chr, points)))
            if len(words) == count:
                break

    def hash_of(word):
        made = 1
        for sign in word:
            made = (made * FACTOR + ord(sign)) % 2 ** BITS
        return made

    if len({hash_of(word) for word in words}) != 1 or len(set(words)) != count:
        sys.exit('the words are not of one hash: FACTOR is another one in the code')
    return words


ANY = [syllables(number * 7919, 3) for number in range(5)]
COMPOUNDS = ['COMPOUNDFLAG X', 'COMPOUNDMIN 1']


def equal_hashes():
    words = of_one_hash(size(300_000, 1_000))
    return [], [*words[:-5], 'a'], words[-5:] + words[:3]


def homonyms():
    count = size(1_000_000, 10_000)
    return ['SFX A Y 1', 'SFX A 0 s .', 'NEEDAFFIX N'], ['foo/N'] * (count - 1) + ['bar/A'], ['foo', 'foos', 'Foo', 'FOOS', 'foo.']


def homonyms_in_compounds():
    count = size(100_000, 2_000)
    return [*COMPOUNDS, 'NEEDAFFIX N'], ['a/XN'] * count, ['a' * 10 + 'b', 'a' * 50, 'a' * 100]


def falling_flags(count):
    def made():
        flags = range(size(65_000, 5_000), 0, -1)
        lines = [f'word{number}/' + ','.join(map(str, [*flags[number:], *flags[:number]])) for number in range(count)]
        return ['FLAG num', 'NEEDAFFIX 1'], lines, ['word0', 'word1x', 'Word0']
    return made


def aliased_rules(count):
    """Suffix rules that carry one alias of many flags each, or several in turn."""
    def made():
        flags = size(65_000, 5_000)
        aliases = [','.join(map(str, range(first, flags + 1))) for first in range(1, count + 1)]
        rows = [f'0 s/{number % count + 1} .' for number in range(size(200_000, 2_000))]
        return ['FLAG num', f'AF {count}', *(f'AF {alias}' for alias in aliases), *rules('SFX', '1', rows)], ['foo'], ['foo', 'foos', 'food']
    return made


def aliased_entries():
    """Forbidden entries that share one alias of many flags, none of which is that of a class or of a compound rule."""
    flags = ','.join(map(str, range(3, size(65_000, 5_000) + 1)))
    options = ['FLAG num', 'AF 1', f'AF {flags}', 'FORBIDDENWORD 3', 'COMPOUNDRULE 1', 'COMPOUNDRULE (1)(2)*', *rules('SFX', '1', ['0 s .'])]
    return options, [f'{syllables(number, 4)}/1' for number in range(size(1_000_000, 10_000))], [syllables(5, 4), syllables(6, 4) + 's', 'foo']


def falling_classes():
    classes = [line for flag in range(size(65_000, 2_000), 0, -1) for line in rules('SFX', flag, ['0 s .'])]
    return ['FLAG num', *classes], ['foo/1'], ['foo', 'foos', 'food']


def one_stem_by_many_rules():
    rows = [f'{syllables(number, 4)} s .' for number in range(size(100_000, 2_000))]
    return ['FULLSTRIP', *rules('SFX', 'A', rows)], ['foo/A'], [word + 's' for word in ANY]


def rules_behind_rules():
    count = size(3_000, 100)
    inner, outer = [[f'{front}{syllables(number, 4)} {added} .' for number in range(count)] for front, added in (('x', '0/B'), ('y', '0'))]
    return ['FULLSTRIP', *rules('SFX', 'A', inner), *rules('SFX', 'B', outer)], ['foo/A'], ANY


def prefixes_and_suffixes():
    count = size(3_000, 100)
    front, behind = [[f'{sign}{syllables(number, 4)} 0 .' for number in range(count)] for sign in 'xy']
    return ['FULLSTRIP', *rules('PFX', 'A', front), *rules('SFX', 'B', behind)], ['foo/AB'], ANY


def prefixes_and_both_suffixes():
    count = size(300, 30)
    rows = [[f'{sign}{syllables(number, 4)} {added} .' for number in range(count)] for sign, added in (('x', '0/B'), ('y', '0'), ('z', '0'))]
    return ['FULLSTRIP', *rules('SFX', 'A', rows[0]), *rules('SFX', 'B', rows[1]), *rules('PFX', 'P', rows[2])], ['foo/AP'], ANY


def conditions():
    rows = [f'0 s [{syllables(number, 4)}]' + '[^z]' * 20 for number in range(size(100_000, 2_000))]
    return rules('SFX', 'A', rows), ['foo/A', 'a' * 30 + '/A'], ['a' * 30 + 's', 'foos', 'bars']


def patterns():
    rows = [f'{syllables(number, 2)} {syllables(number * 7919, 2)}' for number in range(size(65_000, 1_000))]
    parts = [syllables(number, 2) + '/X' for number in range(2_500)]
    return [*COMPOUNDS, *table('CHECKCOMPOUNDPATTERN', rows)], parts, ['vv' + syllables(5 ** 30, 49), syllables(7 ** 30, 49) + 'vv', syllables(11 ** 40, 50)]


def patterns_of_all():
    rows = [f'a a{"b" * (number % 50)}' for number in range(size(65_000, 1_000))]
    return [*COMPOUNDS, *table('CHECKCOMPOUNDPATTERN', rows)], ['a/X', 'aa/X'], ['a' * 100, 'b' + 'a' * 99, 'a' * 99 + 'b']


def replacements(count, parts):
    def made():
        rows = ['a a ' + 'a' * (number % 100 + 1) for number in range(count)]
        return [*COMPOUNDS, *table('CHECKCOMPOUNDPATTERN', rows)], ['a' * number + '/X' for number in range(1, parts + 1)], ['b' + 'a' * 99]
    return made


def rep_of_compounds():
    rows = [f'{syllables(number, 1)} {syllables(number * 7919 + 1, 3)}' for number in range(size(65_000, 1_000))]
    return [*COMPOUNDS, 'CHECKCOMPOUNDREP', *table('REP', rows)], [syllables(number, 1) + '/X' for number in range(50)], [syllables(5 ** 60, 50), syllables(3 ** 90, 50)]


def breaks(row):
    def made():
        rows = [row(number) for number in range(size(65_000, 1_000))]
        return table('BREAK', rows), ['foo'], ['a' * 100, 'ab' * 50, 'a-' * 50, '-' * 100]
    return made


def conversions(row):
    def made():
        rows = [row(number) for number in range(size(65_000, 1_000))]
        return table('ICONV', rows), ['foo'], ['a' * 100, 'ab' * 50, 'a' * 65_000]
    return made


def compound_rules(rule):
    def made():
        rows = [rule(number) for number in range(size(65_000, 1_000))]
        return ['FLAG num', 'COMPOUNDMIN 1', *table('COMPOUNDRULE', rows)], [syllables(number, 3) + '/1' for number in range(20_000)], [
            ''.join(syllables(number * 7919 + more * 37, 3) for more in range(16)) for number in range(3)]
    return made


def stars():
    rows = ['(1)*' * 20 + '(2)'] * size(1_000, 20)
    return ['FLAG num', 'COMPOUNDMIN 1', *table('COMPOUNDRULE', rows)], ['a/1', 'aa/1', 'b/3'], ['a' * 20 + 'b', 'a' * 100, 'a' * 99 + 'b']


def sharps():
    return [*COMPOUNDS, 'CHECKSHARPS', 'KEEPCASE K'], ['aß/XK', 'ß/X', 'ss/X', 'b/X'], ['SS' * 50, 'ASS' * 33, 'SS' * 5 + 'X' * 90, 'S' * 99 + 'B', 'SS' * 49 + 'BC']


def short_parts():
    flags = ['COMPOUNDBEGIN A', 'COMPOUNDMIDDLE B', 'COMPOUNDEND C', 'COMPOUNDMIN 1', 'CHECKCOMPOUNDDUP', 'CHECKCOMPOUNDTRIPLE', 'SIMPLIFIEDTRIPLE']
    return flags, ['a' * number + '/AB' for number in range(1, 51)], ['a' * 100, 'b' + 'a' * 99, 'a' * 99 + 'b']


def short_parts_with_affixes():
    flags = [*COMPOUNDS, 'COMPOUNDPERMITFLAG P', 'COMPOUNDMORESUFFIXES', *rules('SFX', 'S', ['0 a/PX .', '0 aa/PX .', 'a 0/PX .']), *rules('PFX', 'R', ['0 a/PX .', '0 aa/PX .'])]
    return flags, ['a' * number + '/XSRP' for number in range(1, 23)], ['a' * 100, 'b' + 'a' * 99, 'a' * 99 + 'b']


def many_signs(name):
    def made():
        signs = ''.join(chr(point) for point in range(0x2_0000, 0x2_0000 + size(500_000, 5_000)))
        return [f'{name} {signs}'], ['foo'], ['a' * 100, 'foo' * 33, 'a' * 65_000]
    return made


def longest_words():
    return [*COMPOUNDS, *rules('SFX', 'S', ['0 s .'])], ['foo/XS'], ['a' * 100, 'foo' * 33, 'a' * 101, 'foo' * 20_000, "a'" * 32_000, 'ß' * 32_000]


def all_forms_long():
    lines = ['a' * 100 + syllables(number, 3) + '/X' for number in range(size(100_000, 1_000))]
    return [*COMPOUNDS], lines, ['a' * 100, 'a' * 65_000, 'a' * 99 + 'b']


CASES = {
    f'{size(300_000, 1_000):,} words of one hash': equal_hashes,
    f'{size(1_000_000, 10_000):,} homonyms': homonyms,
    f'{size(100_000, 2_000):,} homonyms as parts of compounds': homonyms_in_compounds,
    f'an entry with {size(65_000, 5_000):,} flags in falling order': falling_flags(1),
    f'20 entries with {size(65_000, 5_000):,} flags, each in another falling order': falling_flags(20),
    f'{size(200_000, 2_000):,} suffixes that carry one alias of {size(65_000, 5_000):,} flags': aliased_rules(1),
    f'{size(200_000, 2_000):,} suffixes that carry two such aliases in turn': aliased_rules(2),
    f'{size(1_000_000, 10_000):,} forbidden entries with one alias of {size(65_000, 5_000):,} flags': aliased_entries,
    f'{size(65_000, 2_000):,} classes in falling order of their flags': falling_classes,
    f'{size(100_000, 2_000):,} suffixes that add one text and strip off others': one_stem_by_many_rules,
    f'{size(3_000, 100):,} suffixes that add nothing after {size(3_000, 100):,} that add nothing': rules_behind_rules,
    f'{size(3_000, 100):,} prefixes and {size(3_000, 100):,} suffixes that add nothing': prefixes_and_suffixes,
    f'{size(300, 30)} prefixes, and {size(300, 30)} suffixes after {size(300, 30)}, that add nothing': prefixes_and_both_suffixes,
    f'{size(100_000, 2_000):,} conditions of 21 characters': conditions,
    f'{size(65_000, 1_000):,} rows of CHECKCOMPOUNDPATTERN, 2,500 parts': patterns,
    f'{size(65_000, 1_000):,} rows of CHECKCOMPOUNDPATTERN that begin as the parts do': patterns_of_all,
    '100 replacements of joints, parts `a` to 22 `a`': replacements(100, 22),
    f'{size(1_000, 20):,} replacements of joints, parts `a` to 22 `a`': replacements(size(1_000, 20), 22),
    f'{size(65_000, 200):,} replacements of joints, parts `a` and `aa`': replacements(size(65_000, 200), 2),
    f'CHECKCOMPOUNDREP with {size(65_000, 1_000):,} rows of REP': rep_of_compounds,
    f'{size(65_000, 1_000):,} rows of BREAK, all different': breaks(lambda number: syllables(number, 3)),
    f'{size(65_000, 1_000):,} rows of BREAK that all match': breaks(lambda number: 'a' * (number % 90 + 1)),
    f'{size(65_000, 1_000):,} rows of ICONV, all different': conversions(lambda number: f'{syllables(number, 3)} x'),
    f'{size(65_000, 1_000):,} rows of ICONV that all match': conversions(lambda number: 'a' * (number % 90 + 1) + ' x'),
    f'{size(65_000, 1_000):,} compound rules that begin with a flag of each entry': compound_rules(lambda number: f'(1)({number % 50_000 + 3})*({number % 40_000 + 4})'),
    f'{size(65_000, 1_000):,} compound rules of a flag of each entry': compound_rules(lambda number: f'(1)*({number % 60_000 + 2})'),
    f'{size(1_000, 20):,} compound rules of 20 stars': stars,
    'pairs SS in 100 capitals with CHECKSHARPS': sharps,
    'compounds of 50 parts `a`, `aa` and so on': short_parts,
    'compounds of 22 parts with affixes that add the same': short_parts_with_affixes,
    f'IGNORE of {size(500_000, 5_000):,} characters': many_signs('IGNORE'),
    f'WORDCHARS of {size(500_000, 5_000):,} characters': many_signs('WORDCHARS'),
    'words of the most characters': longest_words,
    f'{size(100_000, 1_000):,} entries of 106 characters': all_forms_long,
}


class Bad(Exception):
    pass


def check():
    """`check` on all words, within the time."""
    try:
        done = subprocess.run([program, 'check', 'aff', 'dic', 'text'], cwd=work, capture_output=True, timeout=BESIDE * LIMIT, check=False,
                              preexec_fn=lambda: resource.setrlimit(resource.RLIMIT_CPU, (LIMIT, LIMIT)))
    except subprocess.TimeoutExpired:
        raise Bad(f'`check` hangs for {BESIDE * LIMIT} s') from None
    if done.returncode < 0 and -done.returncode in (signal.SIGXCPU, signal.SIGKILL):
        raise Bad(f'`check` takes longer than {LIMIT} s')
    last = done.stdout.rsplit(b'\n', 2)[-2:-1]
    if done.returncode not in (0, 1) or done.stderr or not last or not re.fullmatch(rb'\d+ of \d+', last[0]):
        raise Bad(f'`check` ends with {done.returncode}, {done.stdout[-200:]!r}, {done.stderr[:200]!r}')


class Dialogue:
    """`edit`, asked of one word after another."""

    def __enter__(self):
        self.process = subprocess.Popen([program, 'edit', 'aff', 'dic'], cwd=work, stdin=subprocess.PIPE, stdout=subprocess.PIPE)
        return self

    def __exit__(self, *_):
        self.process.kill()
        self.process.wait()

    def spent(self):
        with open(f'/proc/{self.process.pid}/schedstat') as file:
            return int(file.read().split()[0]) / 1e9

    def memory(self):
        with open(f'/proc/{self.process.pid}/status') as file:
            return int(re.search(r'VmHWM:\s+(\d+)', file.read())[1]) / 1024

    def ask(self, line):
        """The processor time up to the reply."""
        before = self.spent() if line != b'ins 1\n' else 0.0
        self.process.stdin.write(line)
        self.process.stdin.flush()
        began = time.monotonic()
        while not select.select([self.process.stdout], [], [], 1)[0]:
            if self.spent() - before > LIMIT or time.monotonic() - began > BESIDE * LIMIT:
                raise Bad(f'`edit` takes longer than {LIMIT} s')
        reply = self.process.stdout.readline()
        if not reply.startswith(b'ok '):
            raise Bad(f'`edit` answers {reply!r}')
        return self.spent() - before


def measure(words):
    """The time of the load and of the slowest word, and the most memory."""
    with Dialogue() as dialogue:
        load, slowest = dialogue.ask(b'ins 1\n'), 0.0
        for word in words:
            dialogue.ask(b'put 1 ' + word.encode() + b'\n')
            slowest = max(slowest, dialogue.ask(b'settle\n'))
        return load, slowest, dialogue.memory()


def main():
    well = True
    print('| dictionary | bytes | load | slowest word | memory |\n|---|---|---|---|---|', flush=True)
    for name, made in CASES.items():
        if only and not any(word in name for word in only):
            continue
        affixes, entries, words = made()
        for file, lines in ('aff', ['SET UTF-8', *affixes]), ('dic', [str(len(entries)), *entries]), ('text', words):
            with open(os.path.join(work, file), 'w') as out:
                out.write('\n'.join(lines) + '\n')
        total = sum(os.path.getsize(os.path.join(work, file)) for file in ('aff', 'dic'))
        try:
            load, slowest, memory = measure(words)
            print(f'| {name} | {total:,} | {load:.2f} s | {slowest * 1000:.2f} ms{" *" if slowest > SLOW else ""} | {memory:.0f} MB |', flush=True)
            check()
        except Bad as bad:
            print(f'| {name} | {total:,} | {bad} | | |', flush=True)
            well = False
    sys.exit(0 if well else 1)


main()
PYTHON
python3 "$work/hostile.py" "$work" "$top/out/affedit" "$@"
