"""Look-ups of keys, as words, as lines, and as they are typed."""
import gzip
import os
import select
import subprocess
import time

from .cases import HELD, NAMES, SEALED_FEW, forms, good_file, held_in, holds, json_key, made, put, said, start
from .formats import escaped, sealed


def looks_up(name, path, pairs, more):
    """Holds `get` against the pairs. `more` are the words that say how the file is read."""
    lines = [k for k in pairs if b'\n' not in k] + [b'zz', b'\xff']
    holds(name + ', get of lines', ['get', path, '-'] + more, b''.join(b'%d\n' % pairs[k] if k in pairs else b'none\n' for k in lines), 1,
          given=b''.join(k + b'\n' for k in lines))
    lines = [k for k in pairs if b'\n' not in k]
    holds(name + ', get of all', ['get', path, '-'] + more, b''.join(b'%d\n' % pairs[k] for k in lines), 0,
          given=b''.join(k + b'\n' for k in lines))
    holds(name + ', get with keys', ['get', path, '-k', '-'] + more,
          b''.join(escaped(k) + (b'\t%d\n' % pairs[k] if k in pairs else b'\tnone\n') for k in lines + [b'z\tz']), 1,
          given=b''.join(k + b'\n' for k in lines + [b'z\tz']))
    holds(name + ', get of what list writes', ['get', path, '--escaped', '-'] + more, b''.join(b'%d\n' % v for v in pairs.values()), 0,
          given=b''.join(escaped(k) + b'\n' for k in pairs))
    hexed = [b''.join(b'\\x%02X' % b for b in k) for k in pairs]
    malformed = [b'\\', b'a\\', b'\\q', b'\\x4', b'\\x4g', b'\\xg4', b'\\T']
    holds(name + ', get of escapes', ['get', path, '-k', '--escaped', '-'] + more,
          b''.join(escaped(k) + b'\t%d\n' % v for k, v in pairs.items()) + b'none\n' * len(malformed), 1,
          given=b''.join(k + b'\n' for k in hexed + malformed))
    words = [k.decode() for k in list(pairs)[:20] if k and b'\0' not in k and not k.startswith(b'-') and isinstance(json_key(k), str)]
    if words:
        values = b''.join(b'%d\n' % pairs[k.encode()] for k in words)
        holds(name + ', get of words', ['get', path] + more + words + ['nope'], values + b'none\n', 1)
        holds(name + ', get of words that are there', ['get', path] + more + words, values, 0)
        holds(name + ', get of one word', ['get', path, words[0]] + more, b'%d\n' % pairs[words[0].encode()], 0)
        holds(name + ', get of words with keys', ['get', path, '-k'] + more + ['nope', words[-1]],
              b'nope\tnone\n' + escaped(words[-1].encode()) + b'\t%d\n' % pairs[words[-1].encode()], 1)
        holds(name + ', get of escaped words', ['get', path, '--escaped'] + more + [''.join(f'\\x{b:02x}' for b in k.encode())
            for k in words] + ['\\q'],
              values + b'none\n', 1)
    holds(name + ', get of a word that is not there', ['get', path, 'nope'] + more, b'none\n', 1)


def test_forms():
    for held in HELD:
        for name, path, more in forms(held):
            looks_up(name, path, held.pairs, more)



def test_options():
    path = good_file()
    holds('no keys', ['get', path], b'', 2, b'<KEY>', b'amp\n')
    holds('no file', ['get'], b'', 2)
    holds('a hyphen as an escape', ['get', path, '--escaped', r'\x2d', 'amp'], b'none\n%d\n' % NAMES[b'amp'], 1)
    holds('words that are not UTF-8', ['get', path, b'\xff'], b'', 2, b'not UTF-8; give keys of other bytes')
    for command, sort in [('get', 'keys'), ('reverse', 'values')]:
        for name in ['-', '/dev/stdin', '/dev/fd/0']:
            holds(f'a file and {sort} from standard input, {name}', [command, name, '-'], b'', 2, b'standard input', given=held_in(path))
    for words in [['get', path, '-', 'amp'], ['get', path, 'amp', '-'], ['get', path, '-', '-'], ['longest', path, '-', 'amp'],
                  ['reverse', path, '-', '1']]:
        holds(f'a hyphen among others, {words}', words, b'', 2, b'- reads standard input only if no other key, text or value is given',
              b'amp\n')


def told(child, count):
    """The next bytes that a program prints, as many as are asked for; fewer if they don't come within ten seconds."""
    got = b''
    while len(got) < count and select.select([child.stdout], [], [], 10)[0]:
        more = os.read(child.stdout.fileno(), count - len(got))
        if not more:
            break
        got += more
    return got


def as_they_come(path, commands):
    """Types lines in, of the trie or index of "ad" and "adef" in a file: each is answered before more is typed, whatever the parts."""
    parts = {
        'get': [(b'\xef', b''), (b'\xbb', b''), (b'\xbfa', b''), (b'd\n', b'22\n'), (b'ade', b''), (b'f\r', b''), (b'\n', b'33\n'),
                (b'x\n\nad\na', b'none\nnone\n22\n'), (b'd' * 300000, b''), (b'\nad\n', b'none\n22\n'), (b'adef', b'')],
        'longest': [(b'ade\n', b'ad\t22\n'), (b'adef' + b'g' * 70000, b''), (b'\n', b'adef\t33\n'), (b'b', b'')]}
    last = {'get': (b'33\n', 1), 'longest': (b'none\n', 1)}
    for command in commands:
        typed = parts[command]
        child = start([command, path, '-'], stdout=subprocess.PIPE)
        for part, wanted in typed:
            child.stdin.write(part)
            child.stdin.flush()
            got = told(child, len(wanted))
            said(f'{command} of {part[:9]!r} as it is typed: {got!r}', got == wanted)
        ended = child.communicate()[0], child.returncode
        said(f'{command} of a last line without a line feed: {ended!r}', ended == last[command])


def test_as_they_come():
    as_they_come(put('trie', SEALED_FEW), ['get', 'longest'])
    as_they_come(made('an index', [(b'ad', 22), (b'adef', 33)], ['--index']), ['get'])


def test_lines():
    """Lines of keys are read as `build` reads lines: a mark in front and the end CR LF go, and other files are refused by their names."""
    path = put('trie', SEALED_FEW)
    mark = b'\xef\xbb\xbf'
    for name, given, wanted in [('CR LF', b'ad\r\nadef\r\n', b'22\n33\n'), ('CR at the end', b'ad\r\nadef\r', b'22\n33\n'),
                                ('a mark', mark + b'ad\nadef\n', b'22\n33\n'),
                                ('a mark and CR LF', mark + b'ad\r\n', b'22\n'), ('a mark alone', mark, b''), ('nothing', b'', b'')]:
        holds(f'get of lines with {name}', ['get', path, '-'], wanted, 0, given=given)
    for name, given, wanted in [('a second mark', mark + mark + b'ad\n', b'none\n'),
                                ('a mark in the second line', b'ad\n' + mark + b'ad\n', b'22\nnone\n'), ('two CR', b'ad\r\r\n', b'none\n'),
                                ('a CR within', b'a\rd\nad\n', b'none\n22\n'), ('a part of a mark', mark[:2], b'none\n'),
                                ('an empty line', b'\r\n', b'none\n'), ('a mark of UTF-16 and no zero', b'\xff\xfead\nad\n', b'none\n22\n'),
                                ('a zero', b'ad\0\nad\n', b'none\n22\n')]:
        holds(f'get of lines with {name}', ['get', path, '-'], wanted, 1, given=given)
    holds('longest of lines with CR LF', ['longest', path, '-'], b'ad\t22\nadef\t33\n', 0, given=mark + b'ade\r\nadefg\r\n')
    holds('reverse of lines with CR LF', ['reverse', path, '-'], b'adef\nad\n', 0, given=mark + b'33\r\n22\r\n')
    looks = b'zerotrie: standard input: it looks like '
    for name, given, why in [('UTF-16', 'ad\r\nadef\r\n'.encode('utf-16'), looks + b'UTF-16: make it UTF-8 by iconv -f UTF-16 -t UTF-8\n'),
                             ('UTF-16, the high byte first', b'\xfe\xff' + 'ad\n'.encode('utf-16-be'), looks + b'UTF-16'),
                             ('UTF-16 with a zero far behind', b'\xff\xfe' + b'a\n' * 100000 + b'a\0', looks + b'UTF-16'),
                             ('gzip', gzip.compress(b'ad\n'), looks + b'a file of gzip: gunzip it first\n'),
                             ('a sealed trie', sealed(0, b'a\x81'), b'it is a trie or an index that zerotrie made')]:
        for command in ['get', 'longest', 'reverse']:
            holds(f'{command} of lines that are {name}', [command, path, '-'], b'', 2, why, given)
    for given, wanted, status in [([b'z', b'tri\n', b'ad\n'], b'none\n22\n', 1), ([b'\x1f', b'\x8b\x08'], b'', 2),
                                  ([b'zt', b'ri\x89\x8a\r', b'\n'], b'', 2), ([b'\xff\xfea\n', b'\0'], b'', 2)]:
        child = start(['get', path, '-'], stdout=subprocess.PIPE, stderr=subprocess.PIPE)
        for part in given:
            child.stdin.write(part)
            child.stdin.flush()
            time.sleep(0.1)
        ended = child.communicate()[0], child.returncode
        said(f'get of {given!r} as it is typed: {ended!r}', ended == (wanted, status))
