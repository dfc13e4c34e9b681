"""Listings: their formats, parts and order."""
import re
import subprocess

from .cases import HELD, LOWER, NAMES, as_json, asks, forms, good_file, held_in, here, holds, json_key, lines_of, made, run, said
from .formats import escaped, sealed
from .reverse import first_keys
from .search import edits_between, is_within


def lists_json(name, path, pairs, words):
    """Holds JSON listings against the pairs in their order: one object if all keys are UTF-8, else an error; and a pair a line."""
    bad = [k for k, v in pairs if not isinstance(json_key(k), str)]
    if bad:
        holds(name + ', as JSON', ['list', path, '--format', 'json'] + words, b'', 1,
              b'a key is not UTF-8, so take --format jsonl: ' + escaped(bad[0]))
    else:
        holds(name + ', as JSON', ['list', path, '--format', 'json'] + words, as_json({k.decode(): v for k, v in pairs}), 0)
    holds(name + ', as JSON lines', ['list', path, '-f', 'jsonl'] + words, b''.join(as_json([json_key(k), v]) for k, v in pairs), 0)


def in_listed_order(path, pairs, words):
    """The pairs in the order in which the program lists them as lines."""
    by_line = {escaped(k) + b'\t%d' % v: (k, v) for k, v in pairs.items()}
    ran = run(['list', path, *words])
    return [by_line[line] for line in ran.stdout.split(b'\n')[:-1]]


def lists(name, path, pairs, more):
    """Holds `list` against the pairs. `more` are the words that say how the file is read."""
    in_order = sorted(pairs.items())
    holds(name + ', list', ['list', path] + more, b''.join(escaped(k) + b'\t%d\n' % v for k, v in in_order), 0)
    holds(name + ', keys', ['list', path, '--format', 'keys'] + more, b''.join(k + b'\n' for k, v in in_order), 0)
    holds(name + ', values', ['list', path, '--format', 'values'] + more, b''.join(b'%d\n' % v for k, v in in_order), 0)
    lists_json(name, path, in_order, more)
    holds(name + ', count', ['list', path, '-c'] + more, b'%d\n' % len(pairs), 0)
    holds(name + ', the first two', ['list', path, '-n', '2'] + more, b''.join(escaped(k) + b'\t%d\n' % v for k, v in in_order[:2]), 0)
    holds(name + ', none', ['list', path, '--limit', '0', '-c'] + more, b'0\n', 0)
    for prefix in ['', 'a', 'sub', 'zz', '\u00e4', '\u00e4\u00f6']:
        is_there = any(k.startswith(prefix.encode()) for k in pairs)
        for words in [[], ['-c'], ['-S'], ['-f', 'json'], ['-n', '7']]:
            asks(f'{name}, list of {prefix!r}, asked only, {words}', ['list', path, '-q', '-p', prefix, *words, *more], 0 if is_there
                 else 1)
        asks(f'{name}, list of {prefix!r}, none asked', ['list', path, '--quiet', '-n', '0', '-p', prefix, *more], 1)
        wanted = b''.join(escaped(k) + b'\t%d\n' % v for k, v in in_order if k.startswith(prefix.encode()))
        holds(f'{name}, list of {prefix!r}', ['list', path, '--prefix', prefix] + more, wanted, 0)


def test_forms():
    for held in HELD:
        for name, path, more in forms(held):
            lists(name, path, held.pairs, more)
        holds(held.name + ', standard input', ['list', '-'], lines_of(sorted(held.pairs.items())), 0, given=bytes([held.tag]) + held.bare)


def test_options():
    path = good_file()
    for word, why in [('x', b'invalid digit found in string'), ('99999999999999999999999', b'number too large to fit in target type'),
                      ('', b'')]:
        holds(f'a limit that is none, {word!r}', ['list', path, '-n', word], b'', 2, b"'--limit <N>'")
        holds(f'a limit that is none, why {word!r} is', ['list', path, f'--limit={word}'], b'', 2, why)
    holds('the greatest limit', ['list', path, '-c', '-n', str(2 ** 64 - 1)], b'%d\n' % len(NAMES), 0)
    holds('a count that is sorted', ['list', path, '-c', '-S'], b'%d\n' % len(NAMES), 0)
    holds('a count in a format', ['list', path, '-c', '-f', 'keys'], b'', 2, b'--count prints no pairs')
    holds('an unknown format', ['list', path, '--format', 'nope'], b'', 2)
    holds('an unknown kind', ['list', path, '--bare-kind', 'nope'], b'', 2)


def test_full_device():
    with open('/dev/full', 'wb') as full:
        ran = run(['list', good_file()], stdout=full, stderr=subprocess.PIPE)
    said(f'a full device: status {ran.returncode}, {ran.stderr!r}', ran.returncode == 3 and b'standard output' in ran.stderr)


def test_json():
    """Pairs are listed as JSON, and a build of the list has the same map."""
    texts = {b'': 1, b'"': 2, b'\\/': 3, b'a\n\r\t\x08\x0c': 4, b'a\0\x1f\x7f': 2 ** 64 - 1, 'aä\u2028\U0001F600'.encode(): 6}
    path = here('json')
    for name, pairs in [('HTML names', NAMES), ('texts', texts), ('bytes', {**texts, b'\xff\xfe': 7, b'b\xc3': 8}), ('no pairs', {})]:
        for kind in ['hash', 'ext']:
            told = b'' if pairs else b': 0 keys, '
            holds(f'{name}, {kind}', ['build', '-', '-o', path, '--kind', kind], b'', 0, told, lines_of(pairs))
            ordered = in_listed_order(path, pairs, [])
            lists_json(f'{name}, {kind}', path, ordered, [])
            first_keys(f'{name}, {kind}', path, ordered, [])
            listed = as_json([[json_key(k), v] for k, v in ordered])
            holds(f'{name}, {kind}, from JSON', ['build', '-', '-o', '-', '--format', 'json', '--kind', kind], held_in(path), 0, told,
                  listed)
            lines = b''.join(as_json([json_key(k), v]) for k, v in ordered)
            holds(f'{name}, {kind}, from JSON lines', ['build', '-', '-o', '-', '--format', 'jsonl', '--kind', kind], held_in(path), 0,
                  told, lines)
            for prefix in ['a', 'b', 'zz']:
                some = in_listed_order(path, pairs, ['--prefix', prefix])
                said(f'{name}, {kind}: pairs from {prefix}', sorted(some) == sorted(p for p in pairs.items()
                    if p[0].startswith(prefix.encode())))
                lists_json(f'{name}, {kind}, from {prefix}', path, some, ['-p', prefix])


def test_sorted():
    """Searches, listings of a range and sorted ones: in every kind the order is that of bytes."""
    odd = {b'': 7, b'a\tb': 1, b'a\nb': 2, 'äö'.encode(): 2 ** 64 - 1, b'\xff\xff': 5, b'\xff\xffa': 6, b'\xfe\xff': 7, b'\xfe': 8,
           b'\xc3': 9}
    path = here('sorted')
    for kind, pairs in [('simple', NAMES), ('ignore', LOWER), ('ignore', {b'b': 1, b'C': 2, b'Cz': 3, b'CA': 4, b'd': 5}), ('hash', NAMES),
                        ('ext', NAMES), ('hash', odd), ('ext', odd), ('hash', {})]:
        folds = kind == 'ignore'
        made('sorted', pairs, ['--kind', kind])
        name = f'sorted, {kind}, {len(pairs)} pairs'
        in_order = sorted(pairs.items())
        for words, has in [([], lambda key: True), (['-p', 'a'], lambda key: (key.lower() if folds else key).startswith(b'a')),
                           (['--prefix', 'Su'], lambda key: key.lower().startswith(b'su') if folds else key.startswith(b'Su')),
                           (['-p', 'ä'], lambda key: key.startswith('ä'.encode())), (['-p', 'zzz'], lambda key: False)]:
            wanted = [pair for pair in in_order if has(pair[0])]
            holds(f'{name}, list {words}', ['list', path, '-S', *words], lines_of(wanted), 0)
            holds(f'{name}, list {words}, counted', ['list', path, '--sorted', '-c', *words], b'%d\n' % len(wanted), 0)
            holds(f'{name}, list {words}, the first three', ['list', path, '-S', '-n', '3', *words], lines_of(wanted[:3]), 0)
            lists_json(f'{name}, list {words}', path, wanted, ['--sorted', *words])
        for words, has in [(['--from', 'am', '--below', 'ap'], lambda key: b'am' <= key < b'ap'),
                           (['--from', 'b'], lambda key: key >= b'b'), (['--below', 'b'], lambda key: key < b'b'),
                           (['--to', 'amp;'], lambda key: key <= b'amp;'),
                           (['--glob', 'a*;', '--bytes'], lambda key: re.fullmatch(rb'a.*;', key, re.S)),
                           (['--subsequence', 'sbq'], lambda key: is_within(b'sbq', key))]:
            wanted = [pair for pair in in_order if has(pair[0].lower() if folds else pair[0])]
            holds(f'{name}, search {words}', ['search', path, *words], lines_of(wanted), 0)
            if words[0] in ('--from', '--below', '--to'):
                holds(f'{name}, list {words}', ['list', path, *words], lines_of(wanted), 0)
            holds(f'{name}, search {words}, the first two', ['search', path, '-n', '2', '-f', 'csv', *words],
                  b''.join(b'%s,%d\n' % pair if re.fullmatch(rb'[ !#-+\--~]*', pair[0])
                           else b'"%s",%d\n' % (pair[0].replace(b'"', b'""'), pair[1]) for pair in wanted[:2]), 0)
        if pairs is NAMES:
            how_far = lambda pair: edits_between('amp;', pair[0].decode())
            wanted = sorted((pair for pair in in_order if how_far(pair) <= 1), key=how_far)
            holds(f'{name}, near a word', ['search', path, '--fuzzy', 'amp;', '-e', '1'], lines_of(wanted), 0)


def test_raw():
    """A key that would be read as two columns or lines is not printed as it is."""
    path = made('keys', {b'a': 1, b'b\tc': 2, b'd\ne': 3, b'f\r\\': 4}, ['--kind', 'hash'])
    for words, bad in [(['list'], b'b\\tc'), (['list', '-n', '2'], b'b\\tc'), (['list', '-p', 'd'], b'd\\ne'), (['list', '-S'], b'b\\tc'),
                       (['search', '-g', '?*'], b'b\\tc'), (['search', '--from', 'c'], b'd\\ne'), (['search', '-z', 'de'], b'd\\ne')]:
        holds(f'raw keys that are none, {words}', [words[0], path, '--raw', *words[1:]], b'', 1,
              path.encode() + b': a key has a tab or a line feed, so leave out --raw: ' + bad + b'\n')
    for words, wanted in [(['list', '-n', '1'], b'a\t1\n'), (['list', '-p', 'f'], b'f\r\\\t4\n'), (['list', '-p', 'b', '-n', '0'], b''),
                          (['search', '-g', '?*', '-n', '1'], b'a\t1\n'), (['search', '-z', 'a'], b'a\t1\n')]:
        holds(f'raw keys, {words}', [words[0], path, '--raw', *words[1:]], wanted, 0)


    for words in [['list'], ['list', '-f', 'tsv'], ['search', '-g', 'b*'], ['search', '-z', 'd', '--distance']]:
        raw = [] if '--distance' in words else ['--raw']
        asks(f'raw keys, asked only, {words}', [words[0], path, '-q', *raw, *words[1:]], 0)
    odd = made('no text', {b'\xff': 1}, ['--kind', 'hash'])
    asks('a key that is not UTF-8, asked only as JSON', ['list', odd, '-q', '-f', 'json'], 0)


def test_top():
    """The pairs of the greatest values, of those of one value the first."""
    counts = {key: hash_of % 7 for hash_of, key in enumerate(sorted(NAMES))}
    path = made('counts', counts, ['--kind', 'simple'])
    in_order = sorted(counts.items())
    for words, has in [([], lambda key: True), (['-S'], lambda key: True), (['-p', 'su'], lambda key: key.startswith(b'su')),
                       (['--from', 'b', '--below', 'c'], lambda key: b'b' <= key < b'c'), (['-p', 'zzz'], lambda key: False)]:
        for most in [0, 1, 2, 5, 100, len(NAMES), 2 ** 64 - 1]:
            wanted = sorted((pair for pair in in_order if has(pair[0])), key=lambda pair: -pair[1])[:most]
            status = 0 if wanted else 1
            holds(f'the top {most}, {words}', ['list', path, '--top', str(most), *words], lines_of(wanted), status)
            holds(f'the top {most}, {words}, counted', ['list', path, '-c', '--top', str(most), *words], b'%d\n' % len(wanted), status)
            asks(f'the top {most}, {words}, asked only', ['list', path, '-q', '--top', str(most), *words], status)
            lists_json(f'the top {most}, {words}', path, wanted, ['--top', str(most), *words]) if wanted else None
            if words and words != ['-S']:
                holds(f'the top {most}, searched {words}', ['search', path, '--top', str(most), *words], lines_of(wanted), status)
    words = made('words', {b'eh': 3, b'the': 1000, b'ten': 7, b'tea': 9, b'meh': 9}, [])
    holds('the commonest word near another', ['search', words, '-z', 'teh', '--top', '2'], b'the\t1000\nmeh\t9\n', 0)
    holds('the commonest words of two edits', ['search', words, '-z', 'teh', '-e', '2', '--top', '4', '--distance'],
          b'the\t1000\t1\nmeh\t9\t1\ntea\t9\t1\nten\t7\t1\n', 0)
    holds('the commonest words of a pattern', ['search', words, '-g', 't*', '--top', '2'], b'the\t1000\ntea\t9\n', 0)
    holds('the top and a limit', ['list', words, '--top', '2', '-n', '1'], b'', 2, b'--top and --limit exclude each other')
    holds('the top of no number', ['list', words, '--top', 'x'], b'', 2, b"'--top <N>'")
    raw = made('raw top', {b'a\tb': 1, b'c': 2}, ['--kind', 'hash'])
    holds('a raw key below the top', ['list', raw, '--raw', '--top', '1'], b'c\t2\n', 0)
    holds('a raw key of the top', ['list', raw, '--raw', '--top', '2'], b'', 1, b'leave out --raw: a\\tb\n')


def test_steers_nothing():
    """What is printed of keys and names has no byte that steers a terminal, and is read back."""
    keys = ['\x80', 'a\x9b31mb', '\xa0', '\u202a', 'a\u202eb', '\u2066\u2069', '\u2029', '\u202f', '\ufeff', 'a\ufeff', '\x7f', '\x1b[2J',
            'ä\\', '\U0001f600', '\ud7ff', '\ue000', '\U0010ffff']
    keys = [k.encode() for k in keys] + [b'\x9b', b'\xc2', b'\xc2x', b'a\xe2\x80', b'\xe2\x80\xae\xae', b'\xc0\x80', b'\xe0\x80\x80',
                                         b'\xed\xa0\x80', b'\xf0\x80\x80\x80', b'\xf4\x90\x80\x80', b'\xff', b'\xef\xbb']
    pairs = {k: n for n, k in enumerate(keys)}
    lines = b''.join(escaped(k) + b'\t%d\n' % v for k, v in sorted(pairs.items()))
    path = here('steering')
    holds('keys that steer, built', ['build', '-', '-o', path], b'', 0,
          given=b''.join(b'%s\t%d\n' % (b''.join(b'\\x%02x' % b for b in k), v) for k, v in pairs.items()))
    holds('keys that steer, listed', ['list', path, '-S'], lines, 0)
    said('keys that steer, no control character', not re.search('[\x00-\x08\x0b-\x1f\x7f-\x9f\u202a-\u202e\u2066-\u2069]', lines.decode()))
    again = run(['build', '-', '-o', '-'], lines).stdout
    holds('keys that steer, built again', ['diff', path, '-'], b'', 0, given=again)
    holds('keys that steer, get', ['get', path, '-k', '-'], b''.join(escaped(k) + b'\t%d\n' % v for k, v in pairs.items() if k != keys[8]),
          0, given=b''.join(k + b'\n' for k in pairs if k != keys[8]))
    holds('keys that steer, longest', ['longest', path, '--escaped', '-'], b''.join(escaped(k) + b'\t%d\n' % v for k, v in pairs.items()),
          0, given=b''.join(escaped(k) + b'\n' for k in pairs))
    holds('keys that steer, diff', ['diff', path, '-'], b''.join(b'-\t' + line for line in lines.splitlines(True)), 1, given=sealed(0, b''))
    for name in ['a\x9b31mb', 'a\u202eb', 'a\x1b[2Jb']:
        holds(f'a name that steers, {name!r}', ['list', here(name)], b'', 3, escaped(name.encode()))
    for words in [['list', path], ['get', path, 'a'], ['build', path, '-o', path], ['search', path, '-g', '*'], ['inspect', 'dump', path],
                  ['completions', 'bash'], ['man']]:
        ran = run([*words, '--\x1b[31m\x9bred'])
        wanted = b"zerotrie: unexpected argument '--\\x1b[31m\\xc2\\x9bred' found\n"
        said(f'a wrong option that steers, {words}: {ran.stderr!r}', ran.returncode == 2 and ran.stderr.startswith(wanted))
    ran = run(['\x1b[2J'])
    said(f'a command that steers: {ran.stderr!r}', ran.returncode == 2
         and ran.stderr.startswith(b"zerotrie: unrecognized subcommand '\\x1b[2J'\n"))
