"""The longest key that a text begins with, and all of them."""

from .cases import HELD, forms, good_file, holds, made
from .formats import escaped


def longest(pairs, line):
    for end in range(len(line), -1, -1):
        if line[:end] in pairs:
            return escaped(line[:end]) + b'\t%d\n' % pairs[line[:end]]
    return b'none\n'


def prefixes(name, path, pairs, more):
    """Holds `longest` against the pairs. `more` are the words that say how the file is read."""
    lines = [k for k in pairs if b'\n' not in k] + [b'zz', b'\xff']
    holds(name + ', longest of lines', ['longest', path, '-'] + more, b''.join(longest(pairs, k) for k in lines),
          0 if all(longest(pairs, k) != b'none\n' for k in lines) else 1, given=b''.join(k + b'\n' for k in lines))
    holds(name + ', longest of escapes', ['longest', path, '--escaped'] + more + ['zerotrie\\q', '\\x7a\\x7A\\t'],
          b'none\n' + longest(pairs, b'zz\t'), 1)
    lines = [k for k in pairs if b'\n' not in k]
    texts = lines + [k + b'.x' for k in lines[:50]] + [b'zz']
    given = b''.join(k + b'\n' for k in texts)
    fronts = [[k[:end] for end in range(len(k) + 1) if k[:end] in pairs] for k in texts]
    holds(name + ', all prefixes', ['longest', path, '--all', '-'] + more,
          b''.join(b''.join(escaped(f) + b'\t%d\n' % pairs[f] for f in found) or b'none\n' for found in fronts),
          0 if all(fronts) else 1, given=given)
    ends = [[f for f in found if f == b'' or len(f) == len(k) or k[len(f):len(f) + 1] == b'.'] for found, k in zip(fronts, texts)]
    holds(name + ', longest at a dot', ['longest', path, '--at', '.', '-'] + more,
          b''.join(escaped(found[-1]) + b'\t%d\n' % pairs[found[-1]] if found else b'none\n' for found in ends),
          0 if all(ends) else 1, given=given)
    holds(name + ', all prefixes at a dot', ['longest', path, '--all', '--at', '.', '-'] + more,
          b''.join(b''.join(escaped(f) + b'\t%d\n' % pairs[f] for f in found) or b'none\n' for found in ends),
          0 if all(ends) else 1, given=given)


def test_forms():
    for held in HELD:
        for name, path, more in forms(held):
            prefixes(name, path, held.pairs, more)


def test_options():
    path, hyphens = good_file(), made('keys with hyphens', [(b'-x', 1), (b'-y', 2), (b'--', 3)])
    holds('no texts', ['longest', path], b'', 2, b'<TEXT>', b'amp\n')
    routes = made('routes', {b'': 1, b'com': 2, b'com.': 3, b'com.uk': 4, b'com.ukr': 5, b'com.uk.ac': 6})
    holds('routes', ['longest', routes, 'com.uk.ac', 'com.ukx', '--all', '--at', '.'],
          b'\t1\ncom\t2\ncom.uk\t4\ncom.uk.ac\t6\n\t1\ncom\t2\n', 0)
    holds('at two bytes', ['longest', path, 'a', '--at', 'ab'], b'', 2, b'--at asks for one byte')
    holds('a byte that is a hyphen', ['longest', hyphens, '--at=-', '--', '-x-a'], b'-x\t1\n', 0)
