"""What comes with tools/affedit-check: completion for bash and zsh, and a hook for git."""

import os
import shutil
import subprocess

from command_runs import COMMAND, SAMPLE, TOP, write

COMPLETION = os.path.join(TOP, 'tools', 'completion')
ASK = 'source "$1"; shift; COMP_WORDS=("$@"); COMP_CWORD=$(($# - 1)); _affedit_check; printf "%s\\n" "${COMPREPLY[@]}"'
# Words of a command line, and what the last of them is completed to.
ROWS = (
    (['-d', 'aa'], ['aa_BB', 'aa_CC']),
    (['-d', 'zz,aa_C'], ['zz,aa_CC']),
    (['-d', './o'], ['./other.aff']),
    (['--h'], ['--hidden', '--help']),
    (['--format', 'j'], ['json']),
    (['--format', '=', 'g'], ['github']),
    (['-p', 'ow'], ['own']),
    (['o'], ['other.aff', 'own']),
    (['--add', 'o'], ['']),
)


def test_completion(tester):
    folder = tester.folder()
    names = tester.folder()
    for name in ('aa_BB', 'aa_CC'):
        for end in ('.aff', '.dic'):
            write(names, name + end, '0\n')
    for name in ('own', 'other.aff'):
        write(folder, name, '')
    env = tester.environment(DICPATH=names)
    for words, wanted in ROWS:
        script = ['bash', '-c', ASK, 'bash', os.path.join(COMPLETION, 'affedit-check.bash'), COMMAND, *words]
        done = subprocess.run(script, cwd=folder, env=env, stdin=subprocess.DEVNULL, stdout=subprocess.PIPE, check=False)
        tester.same(f'completion of {words}', sorted(wanted), sorted(done.stdout.decode().split('\n')[:-1]))
    zsh = shutil.which('zsh', path='/usr/bin:/bin:/usr/local/bin')
    if zsh is None:
        print('skipped: completion for zsh: needs the package zsh')
        return
    done = subprocess.run([zsh, '-f', '-n', os.path.join(COMPLETION, '_affedit-check')], env=env, check=False)
    tester.same('completion for zsh: its grammar', 0, done.returncode)


def test_hook(tester):
    git = shutil.which('git', path='/usr/bin:/bin:/usr/local/bin')
    if git is None:
        print('skipped: the hook for git: needs the package git')
        return
    folder, path = tester.folder(), tester.folder()
    os.symlink(COMMAND, os.path.join(path, 'affedit-check'))
    env = tester.environment(PATH=f'{path}:/usr/bin:/bin', GIT_CONFIG_NOSYSTEM='1', GIT_CONFIG_GLOBAL='/dev/null')

    def run(*words):
        done = subprocess.run([git, '-c', 'user.name=a', '-c', 'user.email=a@b', *words], cwd=folder, env=env, stdin=subprocess.DEVNULL,
                              stdout=subprocess.PIPE, stderr=subprocess.STDOUT, check=False)
        return done.returncode, done.stdout.decode()

    run('init', '-q')
    run('config', 'affedit.dictionary', SAMPLE)
    shutil.copy(os.path.join(TOP, 'examples', 'git-hook'), os.path.join(folder, '.git', 'hooks', 'pre-commit'))
    write(folder, 'code.c', 'teh\n')
    run('add', '.')
    tester.same('a commit without texts', 0, run('commit', '-qm', 'one')[0])
    write(folder, 'sub/a b.md', 'The citys\n')
    run('add', '.')
    write(folder, 'sub/a b.md', 'The cities\n')
    status, said = run('commit', '-qm', 'two')
    tester.same('a commit with a marked word', 1, status)
    tester.holds('a commit with a marked word', 'sub/a b.md:1:5: citys\n', said)
    write(folder, '.affedit-words', 'citys\n')
    tester.same('a list that is not staged', 1, run('commit', '-qm', 'two')[0])
    run('add', '.affedit-words')
    tester.same('a list that is staged', (0, ''), run('commit', '-qm', 'two'))


def test(tester):
    test_completion(tester)
    test_hook(tester)
