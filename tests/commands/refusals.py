"""Builds that make no file, each with its cause."""
import gzip

from .cases import SAME, refused
from .formats import INDEX, sealed


def test_lines():
    for row in [
            ('a line with no tab', [], b'a\t1\nb 2\n', 2, b'standard input: line 2: no tab'),
            ('an empty line', [], b'a\t1\n\nb\t2\n', 2, b'standard input: line 2: an empty line\n'),
            ('an escape that is none', [], b'a\\q\t1\n', 2, b'line 1: '),
            ('a number that is none', [], b'a\t1\nb\t2\nc\t-1\n', 2, b'line 3: the value has a sign: "-1"\n'),
            ('a carriage return that is kept', ['--eol', 'lf'], b'a\t1\r\nb\t2\r\n', 2,
             b'line 1: a carriage return is at the end of the value'),
            ('tagged and bare', ['--tagged', '--bare'], b'a\t1\n', 2, b'exclude each other')]:
        refused(*row)
    for field, why in [(b' 1', b'a blank is in the value'), (b'1.5', b'fraction'), (b'0x41', b'hexadecimal'),
                       (b'18446744073709551616', b'2^64 or more'),
                       (b'', b'missing'), (b'1' * 21, b'more than 20 digits'), (b'xy', b'no decimal number')]:
        refused(f'the value {field!r}', [], b'a\t1\nb\t' + field + b'\n', 2, b'line 2: ', why, b'"%s"' % field)


def test_records():
    for row in [
            ('raw csv', ['-f', 'csv', '--raw'], b'a,1\n', 2, b'--raw is for tsv'),
            ('a record of one field', ['--format', 'csv'], b'a,1\n"b\n",2\nc\n', 2, b'record 3: '),
            ('a later record without a number', ['--format', 'csv'], b'a,1\nb,c\n', 2, b'record 2: the value is no decimal number: "c"\n'),
            ('a record of three fields', ['--format', 'csv'], b'a,1,2\n', 2, b'record 1: wrong number of fields: 3, not 2'),
            ('a quote that is not closed', ['--format', 'csv'], b'a,1\n"b,2\n', 2, b'record 2: ')]:
        refused(*row)


def test_headers():
    for row in [
            ('a header', ['--format', 'csv'], b'key,value\na,1\n', 2, b'record 1: the value is no decimal number: "value"',
             b'; if it is a header, say so by --header\n'),
            ('a header of tsv', [], b'key\tvalue\na\t1\n', 2,
             b'line 1: the value is no decimal number: "value"; if it is a header, say so by --header\n'),
            ('a second header', ['--header'], b'key\tvalue\nkey\tvalue\n', 2, b'line 2: the value is no decimal number: "value"\n'),
            ('a second header of csv', ['--header', '-f', 'csv'], b'key,value\nkey,value\n', 2,
             b'record 2: the value is no decimal number: "value"\n'),
            ('a line behind a header', ['--header'], b'key\tvalue\na\t1\nb 2\n', 2, b'standard input: line 3: no tab'),
            ('a key twice behind a header', ['--header'], b'key\tvalue\na\t1\nb\t2\na\t3\n', 1, b'lines 2 and 4' + SAME + b'a\n'),
            ('a key twice behind a header of csv', ['--header', '-f', 'csv', '--index'], b'key,value\na,1\nb,2\na,3\n', 1,
             b'records 2 and 4' + SAME + b'a\n'),
            ('a key in two cases behind a header, the last of them', ['--header', '-d', 'last', '-k', 'ignore'],
             b'key\tvalue\na\t1\na\t2\nA\t3\n', 1, b'lines 3 and 4: their keys differ only in case'),
            ('a sum behind a header', ['--header', '-d', 'sum'], b'key\tvalue\na\t1\na\t18446744073709551615\n', 1,
             b'line 3: the sum of the values of its key is 2^64 or more: a')]:
        refused(*row)
    for words in [['-f', 'json'], ['-f', 'jsonl'], ['-f', 'lines']]:
        refused(f'a header of {words}', ['--header', *words], b'', 2, b'--header is for tsv and csv')


def test_columns():
    named = ['--key', 'k', '--value', 'v']
    for row in [
            ('a column that is not there', named, b'k\tw\n', 2, b'standard input: line 1: no column has this name: "v"\n'),
            ('a column of csv that is not there', [*named, '-f', 'csv'], b'v,"k "\n', 2, b'record 1: no column has this name: "k"\n'),
            ('a column that is there twice', named, b'v\tk\tk\n', 2, b'line 1: more than one column has this name: "k"\n'),
            ('a column of csv that is there twice', [*named, '-f', 'csv'], b'v,k,w,v\n', 2, b'record 1: more than one column has this name: "v"\n'),
            ('an empty header', named, b'\nv\tk\n', 2, b'line 1: no column has this name: "k"\n'),
            ('a name with an escape', ['--key', 'a\tb', '--value', 'v'], b'a\\tb\tv\n', 2, b'no column has this name: "a\\tb"\n'),
            ('a line with a field too few', named, b'k\tv\tw\na\t1\t\nb\t2\n', 2, b'line 3: wrong number of fields: 2, not 3\n'),
            ('a record with a field too many', [*named, '-f', 'csv'], b'k,v\na,1\nb,2,\n', 2, b'record 3: wrong number of fields: 3, not 2\n'),
            ('an empty line of columns', named, b'k\tv\n\n', 2, b'line 2: wrong number of fields: 0, not 2\n'),
            ('a value of columns that is none', named, b'v\tk\n+1\ta\n', 2, b'line 2: the value has a sign: "+1"\n'),
            ('a key of columns that is none', named, b'v\tk\n1\t\\q\n', 2, b'line 2: a backslash that begins no escape'),
            ('a member that is not there', [*named, '-f', 'jsonl'], b'{"k":"a","v":1}\n{"key":"a","value":1}\n', 2, b'line 2: no JSON list'),
            ('one name', ['--key', 'k'], b'', 2, b'--key and --value go together'),
            ('names of json', [*named, '-f', 'json'], b'{}', 2, b'--key and --value are for tsv, csv and jsonl')]:
        refused(*row)


def test_json():
    for row in [
            ('a JSON name twice', ['-f', 'json'], b'{"a":1,"b":2,"a":3}', 1, b'pairs 1 and 3' + SAME + b'a'),
            ('line ends of json', ['-f', 'json', '--eol', 'lf'], b'{}', 2, b'--eol is for lines and records'),
            ('a key twice in jsonl', ['-f', 'jsonl'], b'["a",1]\n["b",1]\n["a",2]\n', 1, b'lines 1 and 3' + SAME + b'a\n'),
            ('raw jsonl', ['-f', 'jsonl', '--raw'], b'["a",1]\n', 2, b'--raw is for tsv'),
            ('lines of jsonl taken for json', ['-f', 'json'], b'["a",1]\n["b",2]\n', 2,
             b'line 2, column 1: no JSON value; if each line is a value, name the format by --format jsonl\n'),
            ('no JSON', ['--format', 'json'], b'{"a":1,\n}', 2, b'line 2, column '),
            ('no UTF-8', ['--format', 'json'], b'{"\xff":1}', 2, b'no JSON value'),
            ('JSON that is too deep', ['--format', 'json'], b'[' * 200 + b']' * 200, 2,
             b'standard input: line 1, column 129: no JSON value'),
            ('JSON that is no pairs', ['--format', 'json'], b'3', 2, b'neither an object nor a list'),
            ('a JSON object with what is no number', ['--format', 'json'], b'{"c":-1,"b":2,"a":1}', 2,
             b'the value of this key is not written as a whole number below 2^64: c\n'),
            ('two of a JSON object', ['--format', 'json'], b'{"z":"1","b":2,"\\u00e4\\t":1.5}', 2, 'below 2^64: z\n'.encode()),
            ('a key with a tab', ['--format', 'json'], b'{"\\u00e4\\t":1.5}', 2, 'below 2^64: ä\\t\n'.encode()),
            ('a JSON list with what is no pair', ['--format', 'json'], b'[["a",1],["b"],[2,3]]', 2,
             b'pair 2: no list of a key and of a value that is written as a whole number'),
            ('a key twice in a list', ['--format', 'json'], b'[["a",1],["a",2]]', 1, b'pairs 1 and 2' + SAME + b'a'),
            ('a sum in json', ['-d', 'sum', '-f', 'json'], b'[["",18446744073709551615],["",1]]', 1, b'pair 2: ', b'the empty key\n')]:
        refused(*row)
    for name, line in [('no JSON', b'["b",2'), ('an empty line', b''), ('two values', b'["b",2]["c",3]'), ('no list', b'2'),
                       ('three items', b'["b",2,3]'), ('no value', b'{"key":"b"}'), ('a value that is text', b'{"key":"b","value":"2"}'),
                       ('a fraction', b'["b",2.0]'), ('no UTF-8', b'["\xff",2]'), ('a key that is no bytes', b'[[256],2]')]:
        refused(f'jsonl, {name}', ['--format', 'jsonl'], b'["a",1]\n' + line + b'\n["c",3]\n', 2,
                b'standard input: line 2: no JSON list [key, value]')


def test_keys():
    for row in [
            ('a key twice', [], b'b\t1\na\t2\nc\t3\na\t4\n', 1, b'lines 2 and 4' + SAME + b'a'),
            ('a long key twice', [], b''.join(b'%s\t1\n' % (b'k' * n) for n in (5000, 9, 5000)), 1,
             b'lines 1 and 3' + SAME + b'%s.. (5000 bytes)\n' % (b'k' * 100)),
            ('a key of 100 bytes twice', [], b''.join(b'%s\t1\n' % (b'k' * n) for n in (100, 100)), 1,
             b'lines 1 and 2' + SAME + b'%s\n' % (b'k' * 100)),
            ('a sum that is too large', ['-d', 'sum'], b'a\t1\nb\t2\na\t18446744073709551614\na\t1\nb\t18446744073709551615\n', 1,
             b'line 4: the sum of the values of its key is 2^64 or more: a\n'),
            *(('keys that fall', [word], b'a\t1\nc\t2\nb\t3\n', 1, b'line 3: ', b'line 2;', b'--sorted: b') for word in ['--sorted', '-S']),
            ('a key twice, sorted', ['--sorted'], b'a\t1\na\t2\n', 1, b'lines 1 and 2' + SAME + b'a'),
            ('bytes from 128 on', ['--kind', 'simple'], 'a\t1\nä\t2\n'.encode(), 1, b'line 2: its key is not ASCII'),
            ('letters in both cases', ['--kind', 'ignore'], b'Host\t1\nb\t2\nhome\t3\n', 1, b'lines 1 and 3: ', b'--lower-case',
             b'Host and home'),
            ('two keys that differ in case alone', ['--kind', 'ignore'], b'AMP\t1\namp\t2\n', 1, b'lines 1 and 2: ',
             b'leave one out: AMP and amp\n'),
            ('a key twice in lower case', ['--kind', 'ignore', '--lower-case'], b'Host\t1\nhost\t2\n', 1,
             b'lines 1 and 2' + SAME + b'host')]:
        refused(*row)


def test_other_files():
    marked = 'a\t1\r\nb\t2\r\n'.encode('utf-16')
    for name, given, why in [('UTF-16', marked, b'it looks like UTF-16: make it UTF-8 by iconv -f UTF-16 -t UTF-8\n'),
                             ('UTF-16, the high byte first', b'\xfe\xff' + 'a\n'.encode('utf-16-be'), b'it looks like UTF-16'),
                             ('gzip', gzip.compress(b'a\t1\n'), b'it looks like a file of gzip: gunzip it first\n'),
                             ('a sealed trie', sealed(0, b'a\x81'), b'it is a trie or an index that zerotrie made'),
                             ('a sealed index', sealed(INDEX, b''), b'it is a trie or an index that zerotrie made')]:
        for words in [[], ['-r'], ['-f', 'csv'], ['-f', 'lines'], ['-f', 'lines', '--index', '--lower-case'], ['-f', 'json'],
                      ['-f', 'jsonl']]:
            refused(f'{name}, {words}', words, given, 2, why)
