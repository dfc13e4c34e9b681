"""Unions, intersections and differences of files."""
import os
import random

from .cases import NAMES, RUN, build_of, held_in, here, holds, left_in, put, run, said
from .diff import changes_of
from .formats import escaped, kind_of, sealed
from .index import holds_index

RULES = {'first': lambda values: values[0], 'last': lambda values: values[-1], 'sum': sum, 'min': min, 'max': max,
         'refuse': lambda values: values[0], 'equal': lambda values: values[0]}
SEVERAL = b'more than one file has this key; --values first, sum or another gives it one value: '
# each command that combines files, with each rule for values: one is left out
COMBINATIONS = [*((command, rule) for command in ['union', 'intersect'] for rule in [None, *RULES]), ('minus', None)]


def combined(command, rule, maps):
    """What a command makes of maps. If the rule leaves a key without a value, what is said of the first one."""
    values = {}
    for pairs in maps:
        for key, value in pairs.items():
            values.setdefault(key, []).append(value)
    takes = {'union': lambda key: True, 'intersect': lambda key: len(values[key]) == len(maps),
             'minus': lambda key: key in maps[0] and len(values[key]) == 1}[command]
    made = {}
    for key in sorted(filter(takes, values)):
        if rule == 'refuse' and len(values[key]) > 1:
            return SEVERAL + (escaped(key) or b'the empty key')
        if rule == 'equal' and len(set(values[key])) > 1:
            return b'files have different values for this key: ' + (escaped(key) or b'the empty key')
        made[key] = RULES[rule or 'first'](values[key])
        if made[key] >= 2 ** 64:
            return b'the sum of the values of this key is 2^64 or more: ' + (escaped(key) or b'the empty key')
    return made


def as_first(maps):
    """The maps with each key in the case of the first one that has it."""
    seen = {}
    return [{seen.setdefault(key.lower(), key): value for key, value in pairs.items()} for pairs in maps]


def tries_of(name, given):
    """Builds the files of maps, each with its words, and returns their paths."""
    paths = []
    for at, (pairs, words) in enumerate(given):
        made = build_of(pairs, words)
        said(f'{name}, file {at} to combine: {made.stderr!r}', made.returncode == 0)
        paths.append(put(f'file {at}', made.stdout))
    return paths


def holds_combined(name, command, rule, paths, maps, words=(), out='-'):
    """Holds the file that is made of others, and what is said of it, against the one that a build of the pairs makes: of the kind that is
    named, or else that all have."""
    kinds = {kind_of(held_in(path)) for path in paths}
    wanted = combined(command, rule, as_first(maps) if kinds == {'ignore'} else maps)
    by_rule = [] if rule is None else ['--values', rule]
    run, name = [command, *paths, '-o', out, *words, *by_rule], f'{command} of {name}, {[*by_rule, *words]}'
    place = b'zerotrie: ' + (b'standard output' if out == '-' else out.encode()) + b': '
    if isinstance(wanted, bytes):
        return holds(name, run, b'', 1, place + wanted + b'\n')
    is_named = '--kind' in words or '--index' in words
    made = build_of(wanted, [*words, '--kind', *kinds] if len(kinds) == 1 and not is_named else words)
    if made.returncode != 0:
        return holds(name, run, b'', made.returncode, b'take --kind simple')
    several = b'the files have tries of several kinds, so it is of kind '
    told = b'' if is_named or len(kinds) == 1 else place + several + kind_of(made.stdout).encode() + b'\n'
    if not wanted:
        told += place + b'0 keys, '
    holds(name, run, made.stdout if out == '-' else b'', 0, told)
    if told:
        holds(name + ', quiet', [*run, '-q'], made.stdout if out == '-' else b'', 0)
    if out != '-':
        said(name + ': another file', held_in(out) == made.stdout and not left_in(os.path.dirname(out)))
    return wanted


def test_files():
    """Unions, intersections and differences of files, each against dicts."""
    odd = {b'': 7, b'a\tb': 1, b'a\nb': 2, b'\xff\xfe': 5, 'ä'.encode(): 2 ** 64 - 1, b'amp': 3}
    parts = [{k: v for n, (k, v) in enumerate(NAMES.items()) if n % 3 != left} for left in range(3)]
    lower = {k: v for k, v in NAMES.items() if k == k.lower()}
    simple, ignore, hashed, ext = (['--kind', kind] for kind in ['simple', 'ignore', 'hash', 'ext'])
    for name, *given in [
            ('two parts', (parts[0], simple), (parts[1], hashed)),
            ('other values', (NAMES, []), ({k: v + 1 for k, v in parts[0].items()}, [*ext, '--tagged'])),
            ('any case and none', (lower, ignore), (parts[1], [*simple, '--tagged'])),
            ('bytes', (odd, []), ({b'amp': 4, b'\xff': 1, b'a\nb': 9}, hashed)), ('one kind', (NAMES, ext), (parts[0], [*ext, '--tagged'])),
            ('one kind of any case', (lower, [*ignore, '--tagged']), ({b'amp': 4, b'of its own': 1}, ignore)),
            ('nothing and something', ({}, []), (odd, [])), ('something and nothing', (odd, []), ({}, ignore)), ('one file', (odd, [])),
            ('one file of any case', (lower, ignore)), ('one file of nothing', ({}, [])),
            ('three parts', (parts[0], simple), (parts[1], hashed), (parts[2], [*ext, '--tagged'])),
            ('three of one kind', (parts[0], ext), ({k: v + 1 for k, v in NAMES.items()}, ext), (parts[2], [*ext, '--tagged'])),
            ('three of nothing', ({}, simple), ({}, simple), ({}, simple)),
            ('four', (NAMES, []), ({}, []), (odd, []), ({b'amp': 2}, ignore)),
            ('one in each', *(({b'amp': value, b'of %d' % value: 1}, hashed) for value in [5, 2, 9, 9, 2])),
            ('the greatest sum', ({b'a': 2 ** 63}, simple), ({b'a': 2 ** 63 - 1, b'b': 0}, simple), ({b'b': 2 ** 64 - 1}, simple)),
            ('a greater sum', ({b'a': 2 ** 63, b'b': 1}, simple), ({b'a': 2 ** 63 - 1}, simple), ({b'a': 1, b'b': 1}, hashed))]:
        paths, maps = tries_of(name, given), [pairs for pairs, words in given]
        for command, rule in COMBINATIONS:
            holds_combined(name, command, rule, paths, maps)
        for command in ['union', 'intersect', 'minus']:
            for words in [hashed, [*ext, '--tagged'], [*hashed, '--bare'], ['--index']]:
                holds_combined(name, command, None, paths, maps, words)
            wanted = holds_combined(name, command, None, paths, maps, ['--index'], here('index'))
            holds_index(f'{command}, {name}, an index', here('index'), wanted)
            made = run([command, *paths, '-o', '-', '-q']).stdout
            for at, path in enumerate(paths):
                with_stream = [command, *paths[:at], '-', *paths[at + 1:], '-q', '-o']
                holds(f'{command}, {name}, file {at} from standard input', [*with_stream, '-'], made, 0, given=held_in(path))
                again = put('again', held_in(path))
                holds(f'{command}, {name}, file {at} replaced', [command, '-q', '-o', again, *paths[:at], again, *paths[at + 1:]], b'', 0)
                said(f'{command}, {name}, file {at} is another', held_in(again) == made and not left_in(RUN.room))


def test_refusals():
    """Tries what is no combination: each is told with its cause, and an old file stays."""
    def trie(name, pairs, words):
        return put(name, build_of(pairs, words).stdout)

    old, none = put('old', b'old'), here('none')
    a, b, c = trie('a', {b'AMP': 1, b'lt': 2}, []), trie('b', {b'amp': 1, 'ö'.encode(): 2}, []), trie('c', {b'amp': 1}, [])
    etag, longer = trie('d', {b'ETag': 1}, ['-k', 'ignore']), trie('e', {b'etagX': 1}, ['-k', 'ignore'])
    empty, great = trie('f', {b'': 1}, []), trie('g', {b'': 2 ** 64 - 1, b'z': 1}, [])
    cut, text_, cracked = put('cut', build_of(NAMES, []).stdout[:-1]), put('text', b'amp\t1\n'), put('cracked', sealed(0, b'a\x81\x82'))
    two_streams = b"zerotrie: standard input can't be two of the files\n"
    front = b'zerotrie: ' + old.encode() + b': '
    for name, words, status, *told in [
            ('two streams', ['union', '-', '/dev/stdin'], 2, two_streams),
            ('streams beside a file', ['intersect', '-', a, '-'], 2, two_streams),
            ('three streams', ['minus', '-', '/dev/fd/0', '-'], 2, two_streams),
            ('streams of which one is no trie', ['union', text_, '-', '-'], 2, two_streams),
            ('no file', ['union'], 2, b'<FILE>'), ('no first file', ['minus'], 2, b'<FILE>'),
            ('the first is no trie', ['minus', text_, b], 2, text_.encode() + b': it looks like text: build it first'),
            ('the only one is no trie', ['union', text_], 2, text_.encode() + b': it looks like text: build it first'),
            ('standard input is no trie', ['minus', a, '-', b], 2, b'zerotrie: standard input: '),
            ('the second is cut', ['union', a, cut], 2, cut.encode()), ('the third is cut', ['intersect', a, b, cut], 2, cut.encode()),
            ('the second is sealed, and malformed', ['union', a, cracked], 2, b'a value follows a value, at byte 2 of the trie in it'),
            ('the first is not there', ['union', none, b], 3, none.encode()),
            ('the second is not there', ['union', a, none], 3, none.encode()),
            ('the third is not there', ['minus', a, b, none], 3, none.encode()),
            ('a key that is not ASCII', ['union', a, b, '-k', 'simple'], 1, front + b'pair 4: its key is not ASCII', 'ö'.encode()),
            ('keys that are one', ['union', a, c, '-k', 'ignore'], 1, front + b'pairs 1 and 2: their keys differ only in case',
             b'AMP and amp\n'),
            ('keys that begin alike in another case', ['union', etag, longer, '-k', 'auto'], 1, b'pairs 1 and 2: their keys begin alike',
             b'take --kind simple', b'ETag and etagX\n'),
            ('a key of two', ['union', a, b, c, '--values', 'refuse'], 1, front + SEVERAL + b'amp\n'),
            ('a key of all', ['intersect', c, c, c, '--values', 'refuse'], 1, front + SEVERAL + b'amp\n'),
            ('the empty key of two', ['union', empty, great, '--values', 'refuse'], 1,
             front + SEVERAL + b'the empty key\n'),
            ('a sum of 2^64', ['union', great, c, empty, '--values', 'sum'], 1,
             front + b'the sum of the values of this key is 2^64 or more: the empty key\n'),
            ('a sum of 2^64 that all have', ['intersect', great, empty, '--values', 'sum'], 1,
             front + b'the sum of the values of this key is 2^64 or more: the empty key\n'),
            ('a file that is there', ['union', a, b, '--no-clobber'], 1, front + b'the file is there already'),
            ('a file that is there, and none', ['minus', none, none, '--no-clobber'], 1, front + b'the file is there already'),
            ('another rule', ['union', a, b, '--values', 'second'], 2, b"invalid value 'second' for '--values <V>'"),
            ('a rule of minus', ['minus', a, b, '--values', 'last'], 2, b"unexpected argument '--values'"),
            ('quiet, and told', ['intersect', a, b, '-q', '--summary'], 2, b'--summary and --quiet exclude each other'),
            ('tagged and bare', ['union', a, b, '--tagged', '--bare'], 2, b'exclude each other'),
            ('an index of a kind', ['union', a, b, '--index', '-k', 'hash'], 2, b'an index has no kind'),
            ('a tagged index', ['union', a, b, '--index', '--tagged'], 2, b'--index excludes --tagged and --bare')]:
        for part in told:
            holds(f'combined, {name}, {part!r}', [*words, '-o', old], b'', status, part)
        said(f'combined, {name}: the old file changed', held_in(old) == b'old' and not left_in(RUN.room))
    size = len(build_of({b'AMP': 1, b'amp': 1, b'lt': 2}, []).stdout)
    for words in [['--summary'], ['--summary', '--values', 'min']]:
        holds('what is made of three', ['union', a, c, c, '-o', old, *words], b'', 0, front + b'3 keys, %d bytes\n' % size)
    kind = front + b'the files have tries of several kinds, so it is of kind hash\n'
    holds('what is made of two kinds', ['union', a, b, '-o', old, '--summary'], b'', 0, kind + front + b'4 keys, ')
    holds('what is made of two kinds, and not told otherwise', ['union', a, b, '-o', old], b'', 0, kind)
    holds('one key', ['intersect', c, c, c, '-o', old, '--summary'], b'', 0, front + b'1 key, ')
    holds('no key', ['minus', c, a, c, '-o', old], b'', 0, front + b'0 keys, 24 bytes\n')
    holds('no key, quiet', ['minus', c, a, c, '-o', old, '--quiet'], b'', 0)


def test_random_files():
    """Combinations of random files of random kinds, by each rule, against dicts."""
    given = random.Random(29)
    for number in range(10 if RUN.fast else 60):
        files = []
        for at in range(given.choice([1, 2, 3, 3, 3, 5])):
            kind = given.choice(['simple', 'ignore', 'hash', 'ext'] if number % 3 else ['ignore'])
            letters = b'abC' if kind in ['simple', 'ignore'] else b'abC\xff'
            keys = {bytes(given.choices(letters, k=given.randrange(4))) for _ in range(given.choice([0, 2, 10, 40]))}
            if kind == 'ignore':
                keys = {in_case(key, f'{number} {at * (number % 2)}') for key in keys}
            values = [0, 1, 7, 2 ** 63, 2 ** 64 - 1, given.randrange(2 ** 64)][:6 if number % 4 else 3]
            files.append(({key: given.choice(values) for key in sorted(keys)}, ['--kind', kind]))
        paths = tries_of(f'random {number}', files)
        for command, rule in COMBINATIONS:
            holds_combined(f'random {number}', command, rule, paths, [pairs for pairs, words in files])


def in_case(key, seed):
    """The key with letters in a case that depends on the seed and on what is in front of each, so that keys that begin alike agree."""
    return bytes(b ^ 32 if chr(b).isalpha() and random.Random(f'{seed} {key[:at + 1].lower()}').random() < .5 else b for at,
                 b in enumerate(key))


def test_any_case():
    """Combinations and changes of files that ignore case: keys are one exactly if they are without their case, and are then as the
    first file that has them has them."""
    given = random.Random(15)
    lower = [k for k in NAMES if k.isascii() and k == k.lower()]
    headers = {b'Content-Type': 1, b'Content-Length': 2, b'ETag': 3, b'Accept': 4}
    rows = [('headers', headers, {b'etag': 7}), ('headers of one value', headers, {b'ETAG': 3, b'accept': 4}),
            ('headers twice', headers, headers),
            ('headers and nothing', headers, {}), ('nothing and headers', {}, headers),
            ('another key', {b'etag': 1}, {b'ETag': 1, b'b': 2, b'Z': 3}),
            ('begun alike', {b'ETag': 1, b'b': 2}, {b'etagX': 1, b'B': 2}),
            ('headers of three', {b'accept': 1}, {b'ETag': 2, b'ACCEPT': 2}, {b'Accept': 3, b'etag': 3}),
            ('headers of four', {b'b': 1}, {b'B': 2, b'ETAG': 9}, {b'b': 0, b'ETag': 3}, {b'B': 4, b'etag': 1})]
    for seed in range(12):
        some, others = [given.sample(lower, given.choice([2, 40, 400])) for _ in range(2)]
        rows.append((f'sample {seed}', {in_case(k, seed): given.randrange(3) for k in some},
                     {in_case(k, seed + seed % 3): given.randrange(3) for k in some[::2] + others},
                     *({in_case(k, seed + at): given.randrange(3) for k in some[::3] + others[::2]} for at in range(seed % 3))))
    for name, *maps in rows:
        paths = tries_of(f'in any case, {name}', [(pairs, ['--kind', 'ignore']) for pairs in maps])
        for command, rule in COMBINATIONS:
            holds_combined(f'any case, {name}', command, rule, paths, maps)
            holds_combined(f'any case, {name}', command, rule, paths, maps, ['--kind', 'simple'])
        (a, b, *others), paths = as_first(maps), paths[:2]
        holds(f'diff in any case, {name}', ['diff', *paths], changes_of(a, b), 0 if a == b else 1)
        holds(f'diff of standard input in any case, {name}', ['diff', paths[0], '-'], changes_of(a, b), 0 if a == b else 1,
              given=held_in(paths[1]))
    paths = tries_of('in any case and not', [({b'ETag': 1}, ['--kind', 'ignore']), ({b'etag': 2}, ['--kind', 'simple'])])
    holds('diff of keys in another case, one kind that ignores it', ['diff', *paths], changes_of({b'ETag': 1}, {b'etag': 2}), 1)
    for command, rule in COMBINATIONS:
        holds_combined('keys in another case, one kind that ignores it', command, rule, paths, [{b'ETag': 1}, {b'etag': 2}],
                       ['--kind', 'simple'])
        holds_combined('keys in another case, one kind that ignores it', command, rule, [*paths, paths[0]],
                       [{b'ETag': 1}, {b'etag': 2}, {b'ETag': 1}])
