"""A million lines, keys of random bytes, and allocations that fail."""
import hashlib
import os
import shutil
import signal
import subprocess

from .cases import RUN, TOP, held_in, here, holds, lines_of, made, put, run, said


def test_random_bytes():
    digests = lines_of((hashlib.sha1(b'%d' % n).digest(), 0) for n in range(100000))
    for why in [b'no hashed table was found', b'take --index for get and verify alone']:
        holds('keys of random bytes', ['build', '-', '-o', '-'], b'', 1, why, digests)
    path = here('digests')
    holds('an index of random bytes', ['build', '-', '-o', path, '--index'], b'', 0, given=digests)
    holds('an index of random bytes, verified', ['verify', path], b'', 0)


def test_million():
    """Builds 1,000,000 lines in any order."""
    if RUN.fast:
        return
    lines = [b'%x/key\t%d\n' % (n * 2654435761 % 2 ** 32, n) for n in range(10 ** 6)]
    path = here('million')
    index = here('million in an index')
    holds('a million lines, an index', ['build', '-', '-o', index, '--index'], b'', 0, given=b''.join(lines))
    holds('a million lines, an index, verify', ['verify', index], b'', 0)
    holds('a million lines, get of an index', ['get', index, '-k', '-'], b''.join(reversed(lines)), 0,
          given=b''.join(line.split(b'\t')[0] + b'\n' for line in reversed(lines)))
    holds('a million lines', ['build', '-', '-o', path], b'', 0, given=b''.join(lines))
    ran = run(['list', path])
    said('a million lines, listed', sorted(ran.stdout.splitlines(True)) == sorted(lines))
    child = subprocess.Popen([RUN.program, 'list', path], stdout=subprocess.PIPE, stderr=subprocess.PIPE)
    child.stdout.readline()
    child.stdout.close()
    told = child.communicate()[1]
    said(f'a reader that has enough: status {child.returncode}, {told!r}', child.returncode == 4 and told == b'')


def is_aborted(ran):
    """Whether the program is that of plain Rust, and ended as Rust's std and the crates below it do without memory."""
    aborted = ran.returncode == -signal.SIGABRT and b'memory allocation of ' in ran.stderr
    return aborted and b'plain Rust' in run(['--version']).stdout


def test_without_memory():
    """Refuses a build, a listing and a look-up each of their requests for memory: each ends with its status and a message."""
    if RUN.fast or not shutil.which('rustc'):
        return
    library = here('preload.so')
    refuses = subprocess.run(['rustc', '-O', '--edition', '2024', '--crate-type', 'cdylib', '-C', 'panic=abort',
                           TOP / 'tests/preload.rs', '-o', library]).returncode == 0
    said('the library that refuses memory', refuses)
    if not refuses:
        return
    pairs = [(b'%d' % n, n) for n in range(3)]
    few, old, index = put('few', lines_of(pairs)), made('kept', pairs), made('index', pairs, ['--index'])
    held = held_in(old)
    for words in [['build', few, '-o', old], ['list', old], ['list', old, '--format', 'json'], ['get', old, '1'], ['get', old, '-'],
                  ['verify', old], ['stats', old], ['build', few, '-o', '-', '--index'], ['union', old, old, '-o', '-', '--index'],
                  ['union', old, old, old, '-o', '-', '--values', 'sum'], ['get', index, '1'], ['get', index, '-'], ['verify', index]]:
        whole = run(words, b'1\n2\n').stdout
        refusals = 0
        for granted in range(10000):
            ran = run(words, b'1\n2\n', env={**os.environ, 'LD_PRELOAD': library, 'GRANTED': str(granted), 'ALL': '1'})
            if not ran.stderr.startswith(b'refused\n'):
                break
            refusals += 1
            kept = held_in(old) == held
            told = ran.returncode == 3 and b'out of memory' in ran.stderr or is_aborted(ran)
            if not kept or not (told or (ran.returncode == 0 and ran.stdout == whole)):
                said(f'{words[0]}, {granted} requests granted: status {ran.returncode}, {ran.stderr!r}', False)
                break
        said(f'{words[0]}, {refusals} requests refused: status {ran.returncode}, {ran.stderr!r}',
             refusals > 0 and ran.returncode == 0 and ran.stdout == whole)
