"""The files of indexes: builds of them, what they refuse, and what other commands say of them."""
import itertools
import os
import re
import struct

from .cases import NAMES, SAME, held_in, here, holds, lines_of, made, put, refused, run, said
from .formats import (BLOCK, BLOCKS, GOLDEN, INDEX, bucket_of, escaped, hash_of, in_blocks, in_buckets, index_of, indexed, sealed, text,
                      unsealed)
from .get import looks_up


def index_built(name, words, given, pairs):
    """Builds the file of an index, and holds it by its seal and by the pairs that are read in it."""
    path = here('index')
    if os.path.exists(path):
        os.remove(path)
    told = b'' if pairs else b': 0 keys, '
    holds(name, ['build', '-', '-o', path, '--index'] + words, b'', 0, told, given)
    file = held_in(path)
    seal = unsealed(file)
    said(f'{name}: the file is not sealed, or no index: {file[:24]!r}', seal is not None and seal[0] == BLOCKS)
    said(f'{name}: another number of buckets', seal[1][8:16] == struct.pack('<Q', max(1, 2 * len(pairs))))
    holds_index(name, path, pairs)
    holds(name + ', standard output', ['build', '-', '-o', '-', '-i'] + words, file, 0, told, given)


def holds_index(name, path, pairs):
    """Holds the file of an index against its pairs, by the reader here, and by `verify` and `get`."""
    file = held_in(path)
    seal = unsealed(file)
    said(f'{name}: other pairs are in the index', seal is not None and seal[0] in (INDEX, BLOCKS) and indexed(seal[1]) == pairs)
    holds(name + ', verify', ['verify', path], b'', 0)
    holds(name + ', verify of standard input', ['verify', '-'], b'', 0, given=file)
    looks_up(name, path, pairs, [])
    looks_up(name + ', unchecked', path, pairs, ['--no-check'])
    holds(name + ', reverse', ['reverse', path, '1'], b'', 2, IS_INDEX)
    some = [k for k in list(pairs)[:3] if k]
    holds(name + ', get of standard input', ['get', '-', '--escaped', *(''.join(f'\\x{b:02x}' for b in k) for k in some), 'nope'],
          b''.join(b'%d\n' % pairs[k] for k in some) + b'none\n', 1, given=file)


IS_INDEX = b': it holds an index, which answers get and verify alone\n'
# what makes an index of many blocks
LARGE = {b'key %d' % n: n * 2 ** 57 % (2 ** 64 - 1) for n in range(20_000)}


def test_other_commands():
    """Each command but `get` and `verify` says of the file of an index that it is one, and makes no file of it."""
    path, trie, out = made('an index', NAMES, ['--index']), made('a trie beside it', NAMES), here('no file')
    told = b'zerotrie: ' + path.encode() + IS_INDEX
    for words in [['longest', path, 'amp'], ['longest', path, 'amp', '--all'], ['longest', path, 'amp', '--at', ';'],
                  ['longest', path, '--escaped', 'amp'], ['longest', path, '-'], ['list', path], ['list', path, '-S'], ['list', path, '-c'],
                  ['list', path, '-p', 'amp', '-n', '1'],
                  *(['list', path, '-f', form] for form in ['tsv', 'csv', 'keys', 'values', 'json', 'jsonl']),
                  ['search', path, '--glob', 'a*'], ['search', path, '--fuzzy', 'amp'], ['search', path, '--subsequence', 'amp'],
                  ['search', path, '--from', 'a', '--below', 'b', '-c'], ['stats', path], ['stats', path, '-f', 'json'],
                  ['inspect', 'dump', path], ['inspect', 'dot', path], ['inspect', 'dot', path, '-n', '1'],
                  ['code', path, '--lang', 'rust'], ['code', path, '--lang', 'c'], ['code', path, '--lang', 'c', '--alone'],
                  ['code', path, '--lang', 'rattle', '--name', 'names'], ['code', path, '--lang', 'js']]:
        holds(f'an index, {words}', words, b'', 2, told)
        holds(f'an index, unchecked, {words}', [*words, '--no-check'], b'', 2, told)
    holds('an index, diff', ['diff', path, trie], b'', 2, told)
    holds('an index, diff of a trie and it', ['diff', trie, path], b'', 2, told)
    holds('an index, diff of it and itself', ['diff', path, path], b'', 2, told)
    for command in ['union', 'intersect', 'minus']:
        for both in [[path, trie], [trie, path], [path, path], [path], [trie, trie, path]]:
            for words in [[], ['--index'], ['--kind', 'hash', '--tagged']]:
                holds(f'an index, {command} of {both}, {words}', [command, *both, '-o', out, *words], b'', 2, told)
                holds(f'an index, {command} of {both}, {words}, to standard output', [command, *both, '-o', '-', *words], b'', 2, told)
    said('an index: a file was made of it', not os.path.exists(out))
    file = held_in(path)
    for words in [['list', '-'], ['longest', '-', 'amp'], ['search', '-', '--glob', '*'], ['stats', '-'], ['inspect', 'dump', '-'],
                  ['code', '-', '--lang', 'c'],
                  ['diff', '-', trie], ['diff', trie, '-'], ['union', trie, '-', '-o', '-'], ['minus', trie, trie, '-', '-o', '-']]:
        holds(f'an index from standard input, {words}', words, b'', 2, b'zerotrie: standard input' + IS_INDEX, file)
    holds('an index and keys from standard input', ['get', '-', '-'], b'', 2, b"standard input can't be both", file)
    for words in [['get', path, 'amp'], ['verify', path], ['list', path]]:
        holds(f'an index as bare bytes, {words}', [*words, '--bare-kind', 'simple'], b'', 2, b'no trie of kind simple')


def test_other_indexes():
    """Reads indexes that no build makes, and refuses bytes that are none, under a right seal, by each rule of docs/FORMAT.md."""
    path = here('other index')
    sealing = itertools.cycle([in_blocks, lambda bare: sealed(INDEX, bare)])
    pairs = list(NAMES.items())
    odd = {b'': 7, b'a\tb': 1, b'\xff' * 40: 2 ** 64 - 1, b'k' * 3000: 5}
    for name, some, seed, count, marks in [
            ('one bucket', pairs[:16], 0, 1, 0), ('another seed', pairs[:16], 2 ** 64 - 1, 3, 0), ('many buckets', pairs[:16], 3, 1000, 0),
            ('all marks', pairs[:100], 5, 150, 2 ** 32 - 1), ('bytes', list(odd.items()), 1, 4, 0), ('no pairs', [], 9, 1, 0),
            ('no pairs, three buckets', [], 9, 3, 7)]:
        put(path, next(sealing)(index_of(in_buckets(some, seed, count), seed, marks)))
        holds_index(f'an index of {name}', path, dict(some))

    few = pairs[:16]
    good = index_of(in_buckets(few, 0, 4), 0)
    buckets = in_buckets(few, 0, 4)
    pool = 16 + 8 * 5

    def word(at, value):
        return good[:at] + struct.pack('<Q', value) + good[at + 8:]

    entries = struct.unpack('<5Q', good[16:pool])
    full = next(at for at, bucket in enumerate(buckets) if bucket)
    mark = 1 << hash_of(0, buckets[full][0][0]) % 32
    moved = [list(bucket) for bucket in buckets]
    moved[(full + 1) % 4].append(moved[full].pop())
    twice = [list(bucket) for bucket in buckets]
    twice[full].append((twice[full][0][0], 99))
    for name, bare in [
            ('17 keys in a bucket', index_of([pairs[:17]], 0)), ('a key twice', index_of(twice, 0)),
            ('a key twice, with one value', index_of([[(b'a', 1), (b'a', 1)]], 0)), ('a key of another bucket', index_of(moved, 0)),
            ('another seed', word(0, 1)), ('no buckets', struct.pack('<3Q', 0, 0, 0)), ('2^32 buckets', word(8, 2 ** 32)),
            ('2^32 + 4 buckets', word(8, 2 ** 32 + 4)), ('fewer buckets', word(8, 3)), ('more buckets', word(8, 5)),
            ('buckets past the end', word(8, 2 ** 32 - 1)), ('buckets whose table wraps', word(8, 2 ** 61 + 4)),
            ('a key without its mark', word(16 + 8 * full, entries[full] & ~mark)),
            ('a bucket that starts late', word(16, entries[0] + 2 ** 32)), ('a bucket that starts early', word(24, entries[1] - 2 ** 32)),
            ('a bucket past the pool', word(24, 2 ** 64 - 1)), ('an end before the end', word(48, entries[4] - 2 ** 32)),
            ('an end past the end', word(48, entries[4] + 2 ** 32)),
            ('bits over a length', good[:pool] + bytes([good[pool] | 64]) + good[pool + 1:]),
            ('the top bit over a length', good[:pool] + bytes([good[pool] | 128]) + good[pool + 1:]),
            ('a longer key', good[:pool] + bytes([good[pool] + 1]) + good[pool + 1:]),
            ('a shorter key', good[:pool] + bytes([good[pool] - 1]) + good[pool + 1:]), ('a byte behind the pool', good + b'\0'),
            ('a byte less', good[:-1]), ('no pool', good[:pool]), ('half a table', good[:pool - 12]), ('a word', good[:8]),
            ('15 bytes', good[:15]), ('no bytes', b''), ('a trie', text(sorted(NAMES.items()), 0, False)),
            ('a length that goes on', struct.pack('<4Q', 0, 1, 2 ** 32 - 1, 2 ** 32) + b'\x20')]:
        said(f'{name}: the reader here takes it', indexed(bare) is None)
        put(path, next(sealing)(bare))
        holds(f'{name}, sealed as an index', ['verify', path], b'', 2, b'zerotrie: ' + path.encode() + b': the index in it is malformed\n')
        returns(f'{name}, sealed as an index', path, [key for key, _ in pairs[:40]])
    said('the good index is none', indexed(good) == dict(few))


def returns(name, path, keys):
    """Holds that `get` of these keys prints a line for each, whatever is in the file."""
    ran = run(['get', path, '--escaped', '-'], b''.join(escaped(key) + b'\n' for key in keys))
    lines = ran.stdout.splitlines()
    said(f'{name}, get: {ran.returncode}, {ran.stdout[:50]!r}, {ran.stderr!r}', ran.returncode == (1 if b'none' in lines else 0)
         and not ran.stderr
         and len(lines) == len(keys) and all(re.fullmatch(rb'none|\d{1,20}', line) for line in lines))


def test_large_index():
    """Looks a few keys up in a large index, of which only some blocks are read: with damage in one of them or elsewhere."""
    path, pairs = made('a large index', LARGE, ['--index']), LARGE
    good = held_in(path)
    seal = unsealed(good)
    said('a large index has other pairs, or few blocks', seal is not None and seal[0] == BLOCKS and len(seal[1]) > 10 * BLOCK
         and indexed(seal[1]) == pairs)
    os.symlink(path, path + ' by link')
    keys = list(pairs)
    for some in [[b'key 0'], [b'none'], [b'key 19999', b'key 7'], [b'key 1', b'none'], keys[:2], keys[:3], keys[100:140]]:
        wanted, status = b''.join(b'%d\n' % pairs[k] if k in pairs else b'none\n' for k in some), 1 if b'none' in some else 0
        for by in [path, path + ' by link']:
            holds(f'a large index, {some[:3]}', ['get', by, *some], wanted, status)
            holds(f'a large index, {some[:3]}, unchecked', ['get', by, *some, '--no-check'], wanted, status)
        both = b''.join(k + (b'\t%d\n' % pairs[k] if k in pairs else b'\tnone\n') for k in some)
        holds(f'a large index, {some[:3]}, with keys', ['get', path, '-k', *some], both, status)
        spelled = [b''.join(b'\\x%02x' % b for b in k) for k in some]
        holds(f'a large index, {some[:3]}, with escapes', ['get', path, '--escaped', *spelled], wanted, status)
        holds(f'a large index, {some[:3]}, standard input', ['get', '-', *some], wanted, status, given=good)
        holds(f'a large index, {some[:3]}, lines', ['get', path, '-'], wanted, status, given=b''.join(k + b'\n' for k in some))
    holds('a large index, a bad escape', ['get', path, '--escaped', 'key 1', '\\q'], b'%d\nnone\n' % pairs[b'key 1'], 1)
    holds('a large index, listed', ['list', path], b'', 2, IS_INDEX)
    holds('a large index, reverse', ['reverse', path, '1'], b'', 2, IS_INDEX)



def crowded():
    """Keys of which 17 share a bucket under each seed that a build tries."""
    keys, count = set(), 2 * 8 * 17
    for number in range(8):
        mine, n = 0, 0
        while mine < 17:
            key = b'%d.%d' % (number, n)
            if bucket_of(count, hash_of(number * GOLDEN % 2 ** 64, key)) == 0:
                keys.add(key)
                mine += 1
            n += 1
    return keys


def test_builds():
    few = {b'ad': 22, b'adef': 33}
    odd = {b'': 7, b'a\tb': 1, b'a\r\0\x7f': 4, b'\xff' * 70: 2 ** 64 - 1, b'k' * 5000: 5, b'\xff\xfe': 0,
           **{b'x' * n: n for n in range(1, 40)}}
    for row in [
            ('HTML names, index', [], lines_of(NAMES), NAMES),
            ('HTML names, index, sorted', ['--sorted'], lines_of(sorted(NAMES.items())), NAMES),
            ('few pairs, index, auto', ['--kind', 'auto'], lines_of(few), few),
            ('no pairs, index', [], b'', {}),
            ('bytes, index', [], lines_of(odd), odd),
            ('lower case, index', ['--lower-case'], b'Host\t1\nACCEPT\t2\n', {b'host': 1, b'accept': 2}),
            ('the first of two, index', ['-d', 'first'], b'a\t1\nb\t2\na\t3\n', {b'a': 1, b'b': 2}),
            ('the last of two, index', ['-d', 'last'], b'a\t1\nb\t2\na\t3\n', {b'a': 3, b'b': 2}),
            ('json, index', ['-f', 'json'], b'{"a":1,"b":2}', {b'a': 1, b'b': 2}),
            ('lines, index', ['-f', 'lines'], b'to\nin\n', {b'to': 1, b'in': 2})]:
        index_built(*row)


def test_refusals():
    for row in [
            ('a key twice in an index', ['--index'], b'b\t1\na\t2\nc\t3\na\t4\n', 1, b'lines 2 and 4' + SAME + b'a\n'),
            ('a key twice in an index, in lower case', ['--index', '-l'], b'Host\t1\nhost\t2\n', 1,
             b'lines 1 and 2' + SAME + b'host\n'),
            ('keys that fall in an index', ['--index', '--sorted'], b'a\t1\nc\t2\nb\t3\n', 1, b'line 3: ', b'line 2;', b'--sorted: b'),
            ('a key twice in an index, sorted', ['--index', '--sorted'], b'a\t1\na\t2\n', 1, b'lines 1 and 2' + SAME + b'a\n'),
            ('no pairs for an index', ['--index'], b'a\n', 2, b'line 1: no tab'),
            ('keys that crowd an index', ['--index'], lines_of((key, 0) for key in crowded()), 1,
             b'more than 16 keys share a bucket of the index', b'leave out --index')]:
        refused(*row)
    for words in [['--tagged'], ['--bare'], ['--tagged', '--bare']]:
        refused(f'an index that is to be {words}', ['--index'] + words, b'a\t1\n', 2, b'--index excludes --tagged and --bare')
    for kind in ['simple', 'ignore', 'hash', 'ext']:
        refused(f'an index of kind {kind}', ['--index', '--kind', kind], b'a\t1\n', 2, b'an index has no kind')
