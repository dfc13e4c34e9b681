"""The command that makes a file: kinds, formats and options."""
import json
import os
import random

from .cases import LOWER, NAMES, held_in, here, holds, lines_of, put, run, said
from .formats import unsealed


def built(name, words, given, pairs, tag):
    """Builds a file from standard input, and holds it by its tag and by what is listed of it."""
    path = here('built')
    if os.path.exists(path):
        os.remove(path)
    # a file without keys is told
    told = b'' if pairs else b': 0 keys, '
    holds(name, ['build', '-', '-o', path] + words, b'', 0, told, given)
    holds(name + ', without a word', ['build', '-', '-o', path, '-q'] + words, b'', 0, given=given)
    bare = held_in(path)
    kind = [] if tag is not None else ['--bare-kind', words[words.index('--kind') + 1]]
    if tag is not None:
        seal = unsealed(bare)
        said(f'{name}: the file is not sealed, or of another kind: {bare[:24]!r}', seal is not None and seal[0] == tag)
        holds(name + ', tagged', ['build', '-', '-o', '-', '--tagged'] + words, bytes([tag]) + bare[24:], 0, told, given)
        holds(name + ', verified', ['verify', path], b'', 0)
    listed = run(['list', path, *kind]).stdout
    said(f'{name}: listed as {listed[:200]!r}', sorted(listed.splitlines(True)) == sorted(lines_of(pairs).splitlines(True)))
    holds(name + ', from the list', ['build', '-', '-o', '-'] + words, bare, 0, told, listed)
    holds(name + ', sorted', ['build', '-', '-o', '-', '--sorted'] + words, bare, 0, told, lines_of(sorted(pairs.items())))


def test_kinds():
    odd = {b'': 7, b'a\tb': 1, b'a\nb': 2, b'a\\': 3, b'a\rb\x00\x7f': 4, 'äö'.encode(): 2 ** 64 - 1, b'\xff\xfe': 5}
    few = {b'ad': 22, b'adef': 33}
    for kind, tag in [('simple', 0), ('hash', 3), ('ext', 7)]:
        built(f'HTML names, {kind}', ['--kind', kind], lines_of(NAMES), NAMES, tag)
        built(f'HTML names, {kind}, bare', ['--kind', kind, '--bare'], lines_of(NAMES), NAMES, None)
    built('HTML names, ignore', ['--kind', 'ignore'], lines_of(LOWER), LOWER, 8)
    built('HTML names, auto', [], lines_of(NAMES), NAMES, 3)
    built('few pairs, auto', [], lines_of(few), few, 0)
    built('no pairs', [], b'', {}, 0)
    built('bytes', [], lines_of(odd), odd, 3)
    built('bytes, ext', ['--kind', 'ext'], lines_of(odd), odd, 7)
    built('no line feed at the end', [], lines_of(few)[:-1], few, 0)


def test_formats():
    """The other formats, and letters in lower case."""
    listed = lines_of([(b'a,b', 3), (b'x "y"', 4), (b'z\n', 5)])
    for name, words, given, wanted in [
            ('csv', ['--format', 'csv'], b'"x ""y""",4\r\n"a,b",3\n"z\n",5\n', listed),
            ('lines', ['--format', 'lines'], b'to\nin\na\tb\n', lines_of([(b'a\tb', 3), (b'in', 2), (b'to', 1)])),
            ('tsv, raw', ['--raw'], b'C:\\new\\table\t1\n', b'C:\\\\new\\\\table\t1\n'),
            ('a byte order mark and CR LF', [], b'\xef\xbb\xbfa\t1\r\nb\t2\r\n', b'a\t1\nb\t2\n'),
            ('a byte order mark in lines', ['-f', 'lines'], b'\xef\xbb\xbfa\r\nb\r\n', b'a\t1\nb\t2\n'),
            ('a byte order mark in csv', ['-f', 'csv'], b'\xef\xbb\xbfa,1\r\n', b'a\t1\n'),
            ('a byte order mark in json', ['-f', 'json'], b'\xef\xbb\xbf{"a":1}', b'a\t1\n'),
            ('a header', ['--header'], b'key\tvalue\na\t1\nb\t2\n', b'a\t1\nb\t2\n'),
            ('a header, raw', ['--header', '-r'], b'a\t9\na\\b\t1\n', b'a\\\\b\t1\n'),
            ('a header with an escape', ['--header'], b'\xef\xbb\xbf\\q\na\\tb\t1\r\n', b'a\\tb\t1\n'),
            ('a header in lower case', ['--header', '-l'], b'A\t9\nA\t1\n', b'a\t1\n'),
            ('a header of csv', ['--header', '-f', 'csv'], b'\xef\xbb\xbfkey,value,more\r\na,1\r\n', b'a\t1\n'),
            ('a header of two lines', ['--header', '-f', 'csv'], b'"key\nof it",value\na,1\n', b'a\t1\n'),
            ('a header and no pairs', ['--header'], b'key\tvalue', b''),
            ('a header of csv and no pairs', ['--header', '-f', 'csv'], b'key,value\n', b''),
            ('no header and no pairs', ['--header'], b'', b''),
            ('no header of csv and no pairs', ['--header', '-f', 'csv'], b'', b''),
            ('columns of csv by their names', ['-f', 'csv', '--key', 'name', '--value', 'id'], b'\xef\xbb\xbfid,age,name\r\n1,9,"a,b"\r\n2,8,c\r\n',
             b'a,b\t1\nc\t2\n'),
            ('columns by their names', ['--header', '--value', 'id', '--key', 'a b'], b'id\ta b\tage\r\n1\ta\\tb\t9\r\n', b'a\\tb\t1\n'),
            ('columns by their names, raw', ['-r', '--value', 'id', '--key', '\\q'], b'\\q\tid\na\\b\t1\n', b'a\\\\b\t1\n'),
            ('columns in lower case', ['-l', '--key', 'K', '--value', 'k'], b'k\tK\n1\tA\n', b'a\t1\n'),
            ('an empty field', ['--key', 'k', '--value', 'v'], b'k\tv\tw\n\t1\t\n', b'\t1\n'),
            ('one column as key and value', ['-f', 'csv', '--key', 'id', '--value', 'id'], b'id\n7\n', b'7\t7\n'),
            ('columns and no lines', ['--key', 'k', '--value', 'v'], b'', b''),
            ('columns and no pairs', ['-f', 'csv', '--key', 'k', '--value', 'v'], b'k,v', b''),
            ('members by their names', ['-f', 'jsonl', '--key', 'k', '--value', '\u00e4'],
             '{"key":"b","value":2,"ä":9007199254740993,"k":"a"}\n["c",3]\n'.encode(), b'a\t9007199254740993\nc\t3\n'),
            ('carriage returns kept', ['-f', 'lines', '--eol', 'lf'], b'a\r\nb\r\n', b'a\\r\t1\nb\\r\t2\n'),
            ('the first of two', ['--duplicates', 'first'], b'a\t1\nb\t2\na\t3\n', b'a\t1\nb\t2\n'),
            ('the last of two', ['-d', 'last'], b'a\t1\nb\t2\na\t3\n', b'a\t3\nb\t2\n'),
            ('the last of two in json', ['-d', 'last', '-f', 'json'], b'{"a":1,"b":2,"a":3}', b'a\t3\nb\t2\n'),
            ('the sum of three', ['-d', 'sum'], b'a\t1\nb\t2\na\t3\na\t18446744073709551611\n', b'a\t18446744073709551615\nb\t2\n'),
            ('the least of three in jsonl', ['-d', 'min', '-f', 'jsonl'], b'["a",3]\n["b",2]\n["a",1]\n["a",2]\n', b'a\t1\nb\t2\n'),
            ('the greatest of two in csv', ['-d', 'max', '-f', 'csv'], b'a,1\nb,2\na,3\n', b'a\t3\nb\t2\n'),
            ('sums in lower case', ['-d', 'sum', '-l'], b'a\t1\nA\t2\n', b'a\t3\n'),
            ('json, an object', ['--format', 'json', '--kind', 'simple'], json.dumps({k.decode(): v for k, v in NAMES.items()}).encode(),
             lines_of(sorted(NAMES.items()))),
            ('json, a list', ['--format', 'json'], b'[["b", 2], [[255, 0], 18446744073709551615], ["", 0]]',
             lines_of([(b'', 0), (b'b', 2), (b'\xff\0', 2 ** 64 - 1)])),
            ('jsonl', ['--format', 'jsonl'],
             b'\xef\xbb\xbf["b", 2]\r\n {"value": 7, "more": [1, null], "key": "a\\tb"} \n'
             b'[[255, 0], 18446744073709551615]\n{"key": [97], "value": 0}',
             lines_of([(b'a', 0), (b'a\tb', 7), (b'b', 2), (b'\xff\0', 2 ** 64 - 1)])),
            ('jsonl, no lines', ['--format', 'jsonl'], b'', b''),
            ('lower case, jsonl', ['--format', 'jsonl', '--lower-case'], b'["A",1]\n', b'a\t1\n'),
            ('the first of two in jsonl', ['-d', 'first', '-f', 'jsonl'], b'["a",1]\n["b",2]\n{"key":"a","value":3}\n', b'a\t1\nb\t2\n'),
            ('lower case', ['--kind', 'ignore', '--lower-case'], b'Host\t1\nACCEPT\t2\n', b'accept\t2\nhost\t1\n'),
            ('lower case, json', ['--format', 'json', '--lower-case'], b'{"A":1}', b'a\t1\n')]:
        path = here('formats')
        holds(name, ['build', '-', '-o', path] + words, b'', 0, b'' if wanted else b': 0 keys, ', given)
        holds(name + ', listed', ['list', path], wanted, 0)


def test_parts():
    """The keys of many tries at once, with a rule for their values."""
    many = [here(f'part {n}') for n in range(3)]
    chance = random.Random(72)
    parts = [dict(chance.sample(sorted(NAMES.items()), 300)) for _ in many]
    for path, part in zip(many, parts):
        holds('a part', ['build', '-', '-o', path], b'', 0, given=lines_of(part))
    listed = b''.join(run(['list', path]).stdout for path in many)
    for rule, of in [('sum', sum), ('min', min), ('max', max), ('first', lambda values: values[0]), ('last', lambda values: values[-1])]:
        wanted = {key: of([part[key] for part in parts if key in part]) for key in set().union(*parts)}
        holds(f'parts, {rule}', ['build', '-', '-o', many[0] + rule, '-d', rule], b'', 0, given=listed)
        holds(f'parts, {rule}, listed', ['list', many[0] + rule, '-S'], lines_of(sorted(wanted.items())), 0)


def test_raw_keys():
    path = here('raw')
    for words, wanted in [(['-r'], b'a\\b\t1\n\xff\t2\n'), (['--raw', '-f', 'tsv'], b'a\\b\t1\n\xff\t2\n'), ([], b'a\\\\b\t1\n\\xff\t2\n')]:
        holds('a file of raw keys', ['build', '-', '-o', path, '-r'], b'', 0, given=b'a\\b\t1\n\xff\t2\n')
        holds(f'raw keys, listed {words}', ['list', path, '-S', *words], wanted, 0)
        holds(f'raw keys, found {words}', ['search', path, '-p', '', *words], wanted, 0)
    for words, why in [(['-r', '-f', 'csv'], b'--raw is for tsv'),
                       (['-r', '-c'], b'--count prints no pairs: leave out --format and --raw')]:
        holds(f'raw keys, listed {words}', ['list', path, *words], b'', 2, why)


def test_endings():
    """Files whose format is that of their ending."""
    for ending, given in [('tsv', b'a\t1\n'), ('csv', b'a,1\n'), ('json', b'{"a":1}'), ('jsonl', b'["a",1]\n'), ('ndjson', b'["a",1]\n'),
                          ('txt', b'a\n'), ('names', b'a\t1\n'), ('TSV', b'a\t1\n'),
                          ('CSV', b'a,1\n'), ('Json', b'{"a":1}'), ('tXT', b'a\n'), ('xcsv', b'a\t1\n'), ('csv ', b'a\t1\n')]:
        holds(f'a file that ends in .{ending}', ['build', put('in.' + ending, given), '-o', here('ended')], b'', 0)
        holds(f'a file that ends in .{ending}, listed', ['list', here('ended')], b'a\t1\n', 0)
