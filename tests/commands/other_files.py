"""What is no trie: text, files of other programs, devices, terminals, cut files, and bytes of another kind."""
import gzip
import os
import subprocess

from .cases import RUN, good_file, held_in, here, holds, put, run, said
from .formats import INDEX, sealed, text


def reading(path, out):
    """Commands that read the trie or the index of a file."""
    return [['get', path, 'a'], ['longest', path, 'a'], ['reverse', path, '1'], ['list', path], ['search', path, '-g', '*'],
            ['verify', path], ['stats', path], ['inspect', 'dump', path], ['code', path, '--lang', 'c'], ['diff', path, path],
            ['union', path, '-o', out]]


def test_by_first_bytes():
    """Files that are no tries, each told by its first bytes."""
    out = here('out')
    looks = b': it looks like '
    line, long = b'amp\t38\n', b'amp\t38\n' * 10000
    cut = b'a' * 65535 + '\u00e4'.encode() + long
    for name, given, why in [('text', line, looks + b'text: build it first\n'), ('a long text', long, looks + b'text: build it first\n'),
                             ('a text with a character at the end of its front', cut, looks + b'text: build it first\n'),
                             ('a text of such characters', '\u20ac'.encode() * 30000, looks + b'text: build it first\n'),
                             ('a long file with other bytes', long[:65532] + b'\xff' + long, b'its first byte is the number of no kind'),
                             ('a long file with other bytes later', long[:65536] + b'\xff' + long, looks + b'text: build it first\n'),
                             ('a short file with a part of a character', b'a\xc3', b'its first byte is the number of no kind'),
                             ('gzip', gzip.compress(line), looks + b'a file of gzip: gunzip it first\n'),
                             ('a long gzip', gzip.compress(os.urandom(100000)), looks + b'a file of gzip: gunzip it first\n'),
                             ('UTF-16', line.decode().encode('utf-16'), looks + b'UTF-16: make it UTF-8 by iconv -f UTF-16 -t UTF-8\n'),
                             ('a long UTF-16', long.decode().encode('utf-16'), looks + b'UTF-16: make it UTF-8'),
                             ('a long file of no kind', b'\x09' + bytes(100000), b'its first byte is the number of no kind'),
                             ('another version', sealed(0, b'a\x81')[:8] + b'\x02\0' + bytes(100000),
                              b'the file has the version 2 of the format'),
                             ('an unknown number', sealed(77, b'a\x81' * 50000), b'the file has the number 77')]:
        for words in reading(put('other', given), out):
            holds(f'{name}, {words[0]}', words, b'', 2, why)
    huge = here('huge')
    for name, front, why, words in [('text', long, looks + b'text: build it first\n', None),
                                    ('an index', sealed(INDEX, b'')[:24] + bytes(100000), b'it holds an index', ['list', huge])]:
        put(huge, front)
        os.truncate(huge, 1 << 40)
        for asked in [words] if words else reading(huge, out):
            holds(f'{name} of a terabyte, {asked[0]}', asked, b'', 2, why)


def test_devices():
    """Devices and terminals in place of tries; and a FIFO, which is read once."""
    out = here('out')
    is_device = b': it is a device'
    for path in ['/dev/full', '/dev/zero', '/dev/urandom']:
        for words in [*reading(path, out), ['build', path, '-o', out]]:
            holds(f'{path}, {words[0]}', words, b'', 2, path.encode() + is_device)
    for words in reading('/dev/null', out):
        holds(f'/dev/null, {words[0]}', words, b'', 2, b'/dev/null: the file is empty')
    ours, theirs = os.openpty()
    for words, why in [*((words, is_device) for words in reading(os.ttyname(theirs), out)),
                       *((words, b'standard input is a terminal: name a file') for words in reading('-', out) if words[0] != 'diff')]:
        ran = run(words, stdin=theirs)
        said(f'a terminal, {words}: status {ran.returncode}, {ran.stderr!r}', ran.returncode == 2 and why in ran.stderr)
    os.close(ours)
    os.close(theirs)
    fifo = here('fifo')
    os.mkfifo(fifo)
    trie = sealed(0, text([(b'a', 1)], 0, False))
    for words, wanted in [(['list', fifo], b'a\t1\n'), (['get', fifo, 'a'], b'1\n'), (['verify', fifo], b'')]:
        writer = subprocess.Popen(['sh', '-c', 'cat > "$0"', fifo], stdin=subprocess.PIPE)
        writer.stdin.write(trie)
        writer.stdin.close()
        holds(f'a FIFO, {words[0]}', words, wanted, 0)
        writer.wait()


def test_cut_files():
    good = held_in(good_file())
    for end in [2, 3, 100, len(good) - 1]:
        cut = put('cut', good[:end])
        for words in [['get', cut, 'amp'], ['code', cut, '--lang', 'c'], ['verify', cut]]:
            holds(f'{words[0]}, cut at {end}', words, b'', 2, b'no trie of kind simple')


def test_many_files():
    """`verify` takes many files, and no other command does."""
    path, missing = good_file(), here('missing')
    good = held_in(path)
    whole, torn = put('whole', good), put('torn', good[:-1])
    holds('many files, verified', ['verify', whole, path, whole], b'', 0)
    for words, status, told in [([whole, torn, path], 2, torn), ([torn, missing], 3, torn), ([torn, missing], 3, missing),
                                ([missing, torn], 3, torn)]:
        holds(f'many files, verified, {status}', ['verify', *words], b'', status, told.encode())
    holds('many files, read as bare bytes', ['verify', whole, path, '--bare-kind', 'nope'], b'', 2, b'nope')
    holds('many files, listed', ['list', whole, path], b'', 2, b'unexpected argument')


def test_kinds():
    """Malformed bytes, numbers of no kind, and bytes that are read as another kind or form."""
    path = good_file()
    good, numbered = held_in(path), b'read as bare bytes, though its first byte is the number of kind simple: leave out --bare-kind'
    for name, words, output, status, told in [
            ('a value after a value', ['verify', put('twice', b'\x00a\x81\x82')], b'', 2,
             b'no trie of kind simple: a value follows a value, at byte 2'),
            ('an empty file', ['list', put('empty', b'')], b'', 2, b'empty'),
            ('a number of no kind', ['list', put('other', b'\x09' + good[1:])], b'', 2,
             b'its first byte is the number of no kind; if it is bare bytes, name their kind by --bare-kind'),
            ('a tagged file as bare bytes', ['get', path, 'amp', '--bare-kind', 'simple'], b'none\n', 1, path.encode() + b': ' + numbered),
            ('a tagged file as bare bytes of another kind', ['list', path, '--bare-kind', 'ext'], b'', 2, numbered),
            ('a sealed file as bare bytes', ['get', put('bared', sealed(0, good[1:])), 'amp', '--bare-kind', 'simple'], b'', 2,
             b'no trie of kind simple'),
            ('text that is no trie', ['get', put('text', b'amp\t38\n'), 'amp'], b'', 2, b'it looks like text: build it first'),
            ('a folder', ['list', RUN.room], b'', 3, RUN.room.encode()),
            ('a missing file', ['list', here('missing')], b'', 3, b'missing')]:
        holds(name, words, output, status, told)
