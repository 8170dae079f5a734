"""What tools/affedit-check passes over, since it is no prose."""

import os

from command_runs import write

# A line, and its marks by a dictionary that has no word. A bar parts marks.
LINES = (
    ('teh https://example.org/pth?q=wrd(x) end', 'teh|end'),
    ('(see https://example.org/a_(b)) end', 'see|end'),
    ('<https://example.org/a>, <b>https://x.y</b>', 'b'),
    ('git+ssh://git@host/a/b. mailto:na@me.org, na@me.org; @name a@', 'name|a'),
    ('www.example.org/pth, awww.b', 'awww|b'),
    ('/usr/share/dct and/or a/b ./affdit ~/.prfile ../x "/etc/psswd"', 'and|or|a|b'),
    ('docs/README.md, a/b.txt:12: dir/sub/ --own=/tmp/x', 'own'),
    (r'C:\Users\x \d', 'd'),
    ('key=/a/b c/d/e.f9, 1/2 he/she://x', 'key'),
    ('no path: a / b // c /', 'no|path|a|b|c'),
    ('日本 https://x.y/日本 日本', '日本|日本'),
)
MARKDOWN = '''# headng `cde` tail

a `code spn
over lines` b ``x ` y`` c \\`not code\\` d `open

    indented cde

- item

  text

      deep cde
  ```sh
  in fnce
  ```
- last

para
    lazy

~~~
~~~~
    tilde
~~~ not an end
~~~~~
[text](target_a.b "titl") ![img](<a b> 'c') [ref]: x
[x]: some_target "nme"

> ```
> quoted
> ```
> `in` quote [t](u)

end of [a `](b)` c](target(x)y) stop
'''
MARKED = ('headng tail a b c not code d open item text last para lazy text titl img c ref x x nme quote t end of a c stop').split()
FENCE = '```\nnever ended\n\nteh\n'


def words_of(tester, folder, name, *more):
    """The words that are marked in a file."""
    _, output, _ = tester.run(['-d', os.path.join(folder, 'd'), '-l', *more, name], folder=folder)
    return output.decode().split('\n')[:-1]


def test(tester):
    folder = tester.folder()
    write(folder, 'd.aff', 'SET UTF-8\n')
    write(folder, 'd.dic', '1\nnothing\n')
    for line, wanted in LINES:
        write(folder, 'a', line + '\n')
        found = words_of(tester, folder, 'a')
        tester.same(f'prose of {line!r}', wanted.split('|'), [word for word in found if not word.isdigit()])
    write(folder, 'a.md', MARKDOWN)
    tester.same('Markdown', MARKED, words_of(tester, folder, 'a.md'))
    write(folder, 'a.MD', MARKDOWN.replace('\n', '\r\n'))
    tester.same('Markdown with CR LF', MARKED, words_of(tester, folder, 'a.MD'))
    write(folder, 'a.txt', MARKDOWN)
    everything = words_of(tester, folder, 'a.txt', '--all')
    tester.same('all', everything, words_of(tester, folder, 'a.md', '--all'))
    tester.same('all: code', True, {'cde', 'spn', 'tilde', 'quoted', 'deep', 'fnce'} <= set(everything))
    write(folder, 'b.md', FENCE)
    tester.same('a fence that is not closed', [], words_of(tester, folder, 'b.md'))
    # Long runs of signs do not take long.
    for sign in ('`', '](', '[', '@', '/', '://', 'a://', '(', '`a', 'www.', '\\`', '> ', '- ', '<'):
        write(folder, 'c.md', f'teh {sign * 30_000} teh {sign * 30_000}\nteh\n')
        tester.same(f'many of {sign!r}', True, len(words_of(tester, folder, 'c.md')) > 0)
