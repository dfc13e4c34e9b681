"""What the program says of itself: help, the man page, completions, errors of the command line, and what its page shows."""
import collections
import os
import re
import shutil
import subprocess

from .cases import RUN, TOP, good_file, here, holds, put, run, said

COMMANDS = 'build get longest reverse list search diff verify stats inspect code union intersect minus completions man'.split()


def options_in(told):
    """The options that a help names, each with its letter, which may be empty, in front."""
    return re.findall(r'^ +(?:-(\w), )?--([\w-]+)', told.stdout.decode(), re.M)


def defaults_in(text):
    """The options that have a default, each with it, of a help or of a part of the man page."""
    return dict(re.findall(r'--([\w-]+)(?:(?!--).)*?\[default: (\w+)\]', text, re.S))


def page_of(command, page):
    """The part of the man page on a command."""
    return page.split(f'.SS {command}\n')[-1].split('\n.S')[0].replace('\\-', '-')


def completes(command, options):
    """Holds that the man page and the completions of each shell have the command, and all of its options by each of their names."""
    bash, zsh, fish, page = (run(words.split()).stdout.decode()
                             for words in ('completions bash', 'completions zsh', 'completions fish', 'man'))
    names = {word for letter, name in options for word in ([f'-{letter}'] if letter else []) + [f'--{name}']}
    found = re.search(rf"^        {command}\) options='(.*?)'", bash, re.M)
    said(f'{command}: completions for bash', found and set(found[1].split()) == names
         and f" {command} " in f" {bash.split('compgen -W ')[1]} ".replace("'", ' '))
    part = re.search(rf"^        {command}\) _arguments.*?;;", zsh, re.M | re.S)
    said(f'{command}: completions for zsh', part and set(re.findall(r"'(--?[\w-]+)\[", part[0])) == names - {'-h'}
         and f"        '{command}:" in zsh)
    lines = re.findall(rf"from {command}' -l ([\w-]+)(?: -s (\w))?", fish)
    part = page_of(command, page)
    said(f'{command}: the man page', set(re.findall(r'\\fB(--?[\w-]+)\\fR', part)) == names - {'-h', '--help'}
         and f'zerotrie {command}\\fR' in part)
    said(f'{command}: completions for fish', set(lines) == {(name, letter) for letter, name in options} and f' -f -a {command} -d ' in fish)


def test_help():
    told = run(['-h'])
    said('-h, statuses', told.returncode == 0 and b'Status: 0 if ' in told.stdout)
    said('-h, wide lines', max(map(len, told.stdout.splitlines())) <= 80)
    for command in COMMANDS:
        told = run([command, '-h'])
        said(f'{command} -h', told.returncode == 0 and f'Example: zerotrie {command} '.encode() in told.stdout)
        said(f'{command} -h, wide lines', max(map(len, told.stdout.splitlines())) <= 80)
        said(f'{command} -h, its name', re.search(f'Usage: zerotrie {command}( |$)'.encode(), told.stdout, re.M))
        completes(command, options_in(told))


def test_letters():
    """A letter of an option has one meaning in the program, but `k`."""
    meant = collections.defaultdict(set)
    for command in COMMANDS:
        for letter, name in options_in(run([command, '-h'])):
            meant[letter].add(name)
    for letter, names in {'n': {'limit'}, 'p': {'prefix'}, 'l': {'lower-case'}, 'a': {'all'}, 'S': {'sorted'}, 'b': {'bare'},
                          'f': {'format'}, 'k': {'kind', 'keys'}}.items():
        said(f'-{letter} is {meant[letter]}', meant[letter] == names)
    for letter, names in meant.items():
        said(f'-{letter} is {names}', len(names) == 1 or letter in ('', 'k'))
    said(f'options without a letter: {meant[""]}',
         {'no-clobber', 'summary', 'subsequence', 'lang', 'alone', 'bare-kind'} <= meant[''])


def test_readers():
    """Help for a device that is full, and for a reader that has enough."""
    with open('/dev/full', 'wb') as full:
        ran = run(['--help'], stdout=full, stderr=subprocess.PIPE)
    said('help on a full device', ran.returncode == 3 and b'standard output' in ran.stderr)
    ours, theirs = os.pipe()
    os.close(ours)
    ran = run(['--help'], stdout=theirs, stderr=subprocess.PIPE)
    os.close(theirs)
    said(f'help for a reader that has enough: {ran.stderr!r}', ran.returncode == 4 and ran.stderr == b'')


def test_man_page():
    page = run(['man']).stdout.decode()
    said('the man page, its sections', re.findall(r'^\.SH (.*)', page, re.M)
         == ['NAME', 'SYNOPSIS', 'DESCRIPTION', 'OPTIONS', 'COMMANDS', 'EXIT STATUS', 'LINKS AND PERMISSIONS',
             'DEVICES AND OPEN FILES', 'WORDS', 'INPUT', 'MEMORY', 'EXAMPLES', 'SEE ALSO'])
    for command in COMMANDS:
        asked, shown = defaults_in(run([command, '-h']).stdout.decode()), defaults_in(page_of(command, page))
        said(f'the man page, the defaults of {command}: {asked}, {shown}', asked == shown
             and asked == {'build': {'kind': 'auto', 'duplicates': 'refuse'}, 'union': {'kind': 'auto', 'values': 'first'},
                           'intersect': {'kind': 'auto', 'values': 'first'}, 'minus': {'kind': 'auto'}}.get(command, {}))
    if shutil.which('groff'):
        ran = subprocess.run(['groff', '-man', '-ww', '-Tutf8', '-z'], input=page.encode(), capture_output=True)
        said(f'the man page, by groff: {ran.stderr!r}', ran.returncode == 0 and not ran.stderr)


def misused(words, why, tip=None):
    """Holds an error of the command line: why, a tip on an option of another command, and the last line, which says where help is."""
    ran = run(words)
    last = f'zerotrie {words[0]} --help shows the options\n' if words[0] in COMMANDS else 'zerotrie --help shows the commands\n'
    tips = re.findall(r'^  tip: (.*)$', ran.stderr.decode(), re.M)
    said(f'{words}: status {ran.returncode}, {ran.stdout!r}, {ran.stderr!r}', (ran.returncode, ran.stdout) == (2, b'')
         and ran.stderr.startswith(b'zerotrie: ' + why)
         and len(tips) <= 1 and tip == next((it for it in tips if ' is an option of ' in it or it.startswith('search prints ')), None)
         and ran.stderr.decode().endswith('\n' + last) and ran.stderr.count(b' --help shows ') == 1)


def test_last_lines():
    path, out = good_file(), here('out')
    for words, why in [
            (['list'], b'the following required arguments were not provided:\n'), (['build', '-'], b'the following required arguments'),
            (['list', path, '--nope'], b"unexpected argument '--nope' found"), (['list', path, '-x'], b"unexpected argument '-x' found"),
            (['list', path, path], b'unexpected argument '), (['list', path, '--limit', 'x'], b"invalid value 'x' for '--limit <N>'"),
            (['list', path, '--prefix'], b"a value is required for '--prefix <P>'"), (['list', path, '--raw=1'], b'unexpected value '),
            (['list', path, '-S', '-S'], b'the argument '), (['inspect', 'dots', path], b"invalid value 'dots' for '<VIEW>'"),
            (['completions'], b'the following required arguments'), (['nope'], b"unrecognized subcommand 'nope'"),
            (['help', 'nope'], b"unrecognized subcommand 'nope'"), (['--nope'], b"unexpected argument '--nope' found"),
            (['man', 'x'], b"unexpected argument 'x' found"), (['build', '-', '-o', out, '-x'], b"unexpected argument '-x' found")]:
        misused(words, why)
    said('a file was made of words that are no command', not os.path.exists(out))


def test_tips():
    """An option of another command is named with the command."""
    path = good_file()
    for words, option, command in [
            (['list', path, '--glob', 'a*'], '--glob', 'search'), (['list', path, '--glob=a*'], '--glob', 'search'),
            (['get', path, 'amp', '--output', 'x'], '--output', 'build'), (['diff', path, path, '--edits', '1'], '--edits', 'search'),
            (['build', '-', '-o', 'x', '--limit', '3'], '--limit', 'list'), (['verify', path, '--no-check'], '--no-check', 'get'),
            (['man', '--lang', 'c'], '--lang', 'code'), (['minus', path, '-o', 'x', '--lower-case'], '--lower-case', 'build')]:
        misused(words, f"unexpected argument '{option}' found".encode(), f'{option} is an option of {command}')
    for option in ['--sorted', '-S']:
        misused(['search', path, '-g', 'a*', option], f"unexpected argument '{option}' found".encode(),
                "search prints in the order of the keys' bytes without it")
    # none of a letter, of what no command has, of an option that the command has, and behind `--`
    for words, why in [(['list', path, '-g', 'a*'], b"unexpected argument '-g' found"),
                       (['list', path, '--fuzy', 'a'], b"unexpected argument '--fuzy' found"),
                       (['nope', '--glob', 'a*'], b"unrecognized subcommand 'nope'"),
                       (['search', path, '--glob', '-x'], b"unexpected argument '-x' found"),
                       (['get', path, '--bare-kind', 'nope', '--', '--glob'], b"invalid value 'nope' for '--bare-kind <K>'")]:
        misused(words, why)


def test_names_that_are_gone():
    path, out = good_file(), here('out')
    misused(['keys', path, '1'], b"unrecognized subcommand 'keys'")
    for words in [['get', path, 'amp'], ['longest', path, 'amp'], ['reverse', path, '1'], ['list', path], ['search', path, '-g', 'a'],
                  ['diff', path, path], ['verify', path], ['stats', path], ['inspect', 'dump', path], ['code', path, '--lang', 'c']]:
        misused([*words, '--bare', 'simple'], b"unexpected argument '--bare' found")
        holds(f'{words} --bare', [*words, '--bare', 'simple'], b'', 2, b"\n  tip: a similar argument exists: '--bare-kind'\n")
        misused([*words, '-b', 'simple'], b"unexpected argument '-b' found")
    for words in [['build', '-', '-o', out], ['union', path, '-o', out], ['intersect', path, '-o', out], ['minus', path, '-o', out]]:
        for option in ['--progress', '-p', '-n']:
            misused([*words, option], f"unexpected argument '{option}' found".encode())
    for words, option in [(['stats', path], '--json'), (['stats', path], '-j'), (['build', '-', '-o', out], '-s'),
                          (['search', path], '-s'), (['code', path, '--lang', 'c'], '-a'), (['code', path], '-l')]:
        misused([*words, option], f"unexpected argument '{option}' found".encode())
    holds('a report in no format', ['stats', path, '--format', 'csv'], b'', 2, b"invalid value 'csv' for '--format <F>'")
    said('a file was made by a name that is gone', not os.path.exists(out))


def test_no_commands():
    path = good_file()
    for words in [['get', path, 'amp', '--kind', 'simple'], ['verify', '-', '--no-check'], ['check', path], ['dump', path],
                  ['list', path, '--trust']]:
        holds(f'an option or a command that is gone, {words}', words, b'', 2)
    holds('no command', ['nope'], b'', 2)
    holds('completions for no shell', ['completions', 'nope'], b'', 2, b"invalid value 'nope'")


def offered(words):
    """What bash offers for the last of some words, in the folder of the test."""
    script = 'source "$0"; COMP_WORDS=("$@"); COMP_CWORD=$(($# - 1)); _zerotrie; printf "%s\\n" "${COMPREPLY[@]}"'
    ran = subprocess.run(['bash', '-c', script, here('bash'), *words], cwd=RUN.room, capture_output=True, text=True)
    return sorted(filter(None, ran.stdout.split('\n'))) if not ran.stderr else ran.stderr


def test_completions():
    """Shells that are here read their completions, and bash finds words by them."""
    for shell in ('bash', 'zsh', 'fish'):
        script = put(shell, run(['completions', shell]).stdout)
        if shutil.which(shell):
            said(f'completions are a script of {shell}', subprocess.run([shell, '-n', script]).returncode == 0)
    kinds, files = ['auto', 'ext', 'hash', 'ignore', 'simple'], ['two words.trie', 'twofold']
    # a file that is named like a view is not offered for one
    for name in [*files, 'dotted']:
        put(name, b'')
    # bash makes words of their own of a `=` and of what is around it
    for words, wanted in [
            (['lo'], ['longest']), (['re'], ['reverse']), (['build', '--ki'], ['--kind']), (['build', '--kind', ''], kinds),
            (['build', '--kind', 's'], ['simple']), (['build', '--kind', '=', 's'], ['simple']), (['build', '--kind', '='], kinds),
            (['build', '-k', 'e'], ['ext']), (['get', '--bare-kind', '=', 'e'], ['ext']), (['stats', '--format', ''], ['json', 'text']),
            (['list', 'two'], files), (['list', 'two w'], files[:1]), (['build', '-o', 'two'], files),
            (['build', '--output', '=', 'two'], files), (['list', '--prefix', ''], []), (['list', '--prefix', '=', 'two'], []),
            (['inspect', 'd'], ['dot', 'dump']), (['inspect', ''], ['dot', 'dump']), (['inspect', 'dump', 'two'], files),
            (['completions', ''], ['bash', 'fish', 'zsh']), (['completions', 'two'], []),
            (['man', ''], []), (['help', 'rev'], ['reverse'])]:
        found = offered(['zerotrie', *words])
        said(f'bash offers {found} for {words}', found == wanted)


def test_page():
    """Runs what the page of the program shows: the session in front, and a build of columns."""
    text = (TOP / 'crates/zerotrie_cli/README.md').read_text()
    room = here('shown')
    os.mkdir(room)
    os.mkdir(here('bin'))
    os.symlink(RUN.program, here('bin/zerotrie'))
    around = {**os.environ, 'PATH': here('bin') + ':' + os.environ['PATH']}
    block = re.search(r'```text\n(.*?)```', text, re.S)[1]
    for command, output in re.findall(r'^\$ (.*)\n((?:[^$].*\n)*)', block, re.M):
        ran = subprocess.run(['sh', '-c', command], cwd=room, env=around, capture_output=True, text=True)
        said(f'the page shows {command!r}: {ran.stdout!r}, {ran.stderr!r}', ran.stdout == output and not ran.stderr)
    put(os.path.join(room, 'table.csv'), 'id,x,name\n1,x,foo\n2,y,bar\n')
    [line] = re.findall(r'^    (zerotrie build .*)', text, re.M)
    ran = subprocess.run(['sh', '-c', line + ' && zerotrie list names'], cwd=room, env=around, capture_output=True, text=True)
    said(f'the page shows {line!r}: {ran.stdout!r}, {ran.stderr!r}', ran.stdout == 'bar\t2\nfoo\t1\n')
    if shutil.which('file'):
        magic = TOP / 'crates/zerotrie_cli/zerotrie.magic'
        ran = subprocess.run(['file', '-b', '-m', magic, 'names.trie'], cwd=room, capture_output=True, text=True)
        said(f'file knows a sealed file: {ran.stdout!r}', ran.stdout.startswith('zerotrie version 1, kind simple, '))
        subprocess.run(['zerotrie', 'build', 'names.tsv', '-o', 'names.index', '--index'], cwd=room, env=around)
        ran = subprocess.run(['file', '-b', '-m', magic, 'names.index'], cwd=room, capture_output=True, text=True)
        said(f'file knows an index: {ran.stdout!r}', re.fullmatch(r'zerotrie version 1, index, 1?\d\d bytes\n', ran.stdout) is not None)
