"""Where a file goes: links, permissions, folders, devices, terminals, what is open, and a disk that is full."""
import os
import select
import subprocess
import tempfile

from .cases import FEW, RUN, SEALED_FEW, held_in, here, holds, left_in, lines_of, made, on_full_disk, put, run, said


def test_links():
    target = put('target', b'old' * 9)
    os.chmod(target, 0o6640)
    os.symlink('target', here('link'))
    holds('a link', ['build', '-', '-o', here('link')], b'', 0, given=FEW)
    said('a link: the file that it leads to is another', held_in(target) == SEALED_FEW)
    said('a link: it is gone', os.path.islink(here('link')))
    said('a link: other permissions, or a set-id bit', os.stat(target).st_mode & 0o7777 == 0o640)
    os.symlink('missing', here('nowhere'))
    holds('a link that leads nowhere', ['build', '-', '-o', here('nowhere')], b'', 3, b'nowhere', FEW)


def test_places():
    target, steers, spelled = here('target'), here('a\x1b[31m\\b\n'), b'/a\\x1b[31m\\\\b\\n: '
    for name, words, output, status, told in [
            ('a folder', ['-', '-o', RUN.room], b'', 3, RUN.room.encode()),
            ('no such folder', ['-', '-o', here('missing/x')], b'', 3,
             b'/missing/x: its folder, or the file that a link leads to, is not there\n'),
            ('a missing input', [here('missing'), '-o', target], b'', 3, b'missing'),
            ('a folder as input', [RUN.room, '-o', target], b'', 3, RUN.room.encode()),
            ('a name that would steer a terminal', ['-', '-o', steers, '--summary'], b'', 0, spelled),
            ('a device', ['-', '-o', '/dev/null'], b'', 0, b''), ('a full device', ['-', '-o', '/dev/full'], b'', 3, b'/dev/full'),
            ('standard output', ['-', '-o', '-'], SEALED_FEW, 0, b''), ('no output', ['-'], b'', 2, b'--output'),
            ('an unknown kind', ['-', '-o', target, '--kind', 'nope'], b'', 2, b'nope')]:
        holds(name, ['build', *words], output, status, told, FEW)
    os.remove(steers)
    holds('a name that would steer a terminal, no such file', ['list', steers], b'', 3, spelled)
    said(f'files left behind: {os.listdir(RUN.room)}', not left_in(RUN.room))


def test_what_is_told():
    path = here('sized')
    for name, words, told, given in [
            ('what is made', ['--summary'], b'zerotrie: %s: 2 keys, %d bytes\n' % (path.encode(), len(SEALED_FEW)), FEW),
            ('one key', ['--summary'], b': 1 key, ', b'a\t1\n'), ('no key', ['--summary'], b': 0 keys, ', b''),
            ('quiet', ['--quiet'], b'', FEW),
            ('keys of which the last count', ['--summary', '-d', 'last'], b': 2 keys, ', FEW + FEW)]:
        holds(name, ['build', '-', '-o', path, *words], b'', 0, told, given)
    holds('quiet, and told', ['build', '-', '-o', path, '-q', '--summary'], b'', 2, b'--summary and --quiet exclude each other', FEW)
    for most, unit, tenth in [(500, b'bytes', 0), (50000, b'kB', 100), (1000000, b'MB', 100000)]:
        ran = run(['build', '-', '-o', path, '--summary', '-b', '-k', 'ext'],
                  lines_of((b'%d-%d' % (n, n * n), n) for n in range(most // 10)))
        size = os.path.getsize(path)
        of_unit = b', %d.%d %s\n' % (*divmod(size // tenth, 10), unit) if tenth else b', %d bytes\n' % size
        said(f'a size in {unit}: {ran.stderr!r}', ran.stderr.endswith(of_unit))


def test_permissions():
    nobody = {'user': 65534, 'group': 65534, 'extra_groups': []} if os.getuid() == 0 else {}
    os.chmod(RUN.room, 0o755)
    for what, of_folder, of_file in [('a folder that takes no file', 0o555, 0o666), ('a file that may not be written', 0o777, 0o444)]:
        closed = tempfile.mkdtemp(dir=RUN.room)
        kept = put(os.path.join(closed, 'kept'), b'old')
        os.chmod(kept, of_file)
        os.chmod(closed, of_folder)
        ran = run(['build', '-', '-o', kept], FEW, cwd='/', **nobody)
        said(f'{what}: {ran.stderr!r}', ran.returncode == 3 and b'so has its folder, where a new file is made' in ran.stderr)
        said(f'{what}: its file stays, and no other comes', held_in(kept) == b'old' and os.listdir(closed) == ['kept'])


def test_full_disk():
    target = put('target', SEALED_FEW)
    ran = on_full_disk(target)
    said('no room for all of it: the old file is another', held_in(target) == SEALED_FEW)
    said(f'no room for all of it: status {ran.returncode}, {ran.stderr!r}', ran.returncode == 3 and b'target' in ran.stderr)


def test_no_clobber():
    target, free = put('target', SEALED_FEW), here('free')
    holds('OUT is there already', ['build', here('missing'), '-o', target, '--no-clobber'], b'', 1,
          target.encode() + b': the file is there already')
    said('OUT is there already: it is another', held_in(target) == SEALED_FEW)
    holds('OUT is not there', ['build', '-', '-o', free, '--no-clobber'], b'', 0, given=FEW)
    said('OUT is not there: the file is another', held_in(free) == SEALED_FEW)


def test_terminals():
    """No file is written to a terminal, neither by a build nor by a union; and a terminal is told in one line what was made."""
    trie = put('trie', SEALED_FEW)
    for words in [['build', '-', '-o', '-'], ['build', '-', '-o', '/dev/stdout', '--index'], ['union', trie, trie, '-o', '-'],
                  ['minus', trie, '-o', '-']]:
        ours, theirs = os.openpty()
        ran = run(words, FEW, stdout=theirs, stderr=subprocess.PIPE)
        shown = select.select([ours], [], [], 0)[0]
        os.close(theirs)
        os.close(ours)
        said(f'{words[0]} to a terminal: {ran.returncode}, {ran.stderr!r}',
             ran.returncode == 2 and b'zerotrie: standard output is a terminal' in ran.stderr and not shown)
    for words, wanted in [([], b'keys, '), (['--quiet'], b'')]:
        for command in [['build', '-'], ['union', trie, trie], ['intersect', trie, trie, trie], ['minus', trie]]:
            ours, theirs = os.openpty()
            status = run([*command, '-o', trie, *words], FEW, stderr=theirs).returncode
            shown = os.read(ours, 1000) if select.select([ours], [], [], 0)[0] else b''
            os.close(theirs)
            os.close(ours)
            said(f'a file is made, and a terminal watches, {command}, {words}: {shown!r}',
                 status == 0 and wanted in shown and shown.count(b'\n') == bool(wanted))


def test_open_files():
    """Builds to files that are open: what stands in them stays."""
    given, path = lines_of([(b'x', 1)]), here('open')
    trie = held_in(made('what is written to open files', [(b'x', 1)]))
    for name, number in [('/dev/stdout', 1), ('/dev/fd/1', 1), ('/dev/stderr', 2), ('/dev/fd/2', 2), ('/proc/self/fd/1', 1),
                         ('/proc/self/fd/2', 2)]:
        put(path, b'HEAD')
        with open(path, 'ab') as out:
            ran = run(['build', '-', '-o', name], given, **{'stdout' if number == 1 else 'stderr': out})
            out.write(b'TAIL')
        held = held_in(path)
        said(f'a file that is open at {name}: {held!r}', ran.returncode == 0 and held == b'HEAD' + trie + b'TAIL')


def test_in_is_out():
    path, leads, other = put('both', lines_of([(b'x', 1)])), here('leads'), here('other name')
    os.symlink(path, leads)
    for name, source, to in [('IN is OUT', path, path), ('IN is OUT by another path', path, here('./both')),
                             ('a link to IN is OUT', path, leads), ('IN is a link to OUT', leads, path)]:
        holds(name, ['build', source, '-o', to], b'', 2, f'zerotrie: {source} and {to}: IN and OUT are the same file'.encode())
    os.link(path, other)
    holds('OUT is another name of IN', ['build', path, '-o', other], b'', 0)
    said('OUT is another name of IN: it is the trie', held_in(other) == held_in(made('the same', [(b'x', 1)])))
    said('IN is OUT: it is as it was', held_in(path) == lines_of([(b'x', 1)]))
