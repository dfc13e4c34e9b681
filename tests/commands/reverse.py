"""The first key of each value."""

from .cases import HELD, forms, good_file, holds
from .formats import escaped


def first_keys(name, path, pairs, more):
    """Holds `reverse` against the pairs, in the order in which the file lists them."""
    first = {}
    for key, value in pairs:
        first.setdefault(value, key)
    given = [*first, next(v for v in range(2 ** 62, 2 ** 63) if v not in first)]
    lines = b''.join(escaped(first[v]) + b'\n' if v in first else b'none\n' for v in given)
    holds(name + ', reverse of lines', ['reverse', path, '-'] + more, lines, 1, given=b''.join(b'%d\n' % v for v in given))
    holds(name + ', reverse of words', ['reverse', path, *map(str, given[-20:])] + more, b''.join(lines.splitlines(True)[-20:]), 1)
    wrong_ = ['', 'x', '+1', '0x1', '1 ', str(2 ** 64), '9' * 21, '0' * 21]
    holds(name + ', reverse of what is no value', ['reverse', path, *wrong_] + more, b'none\n' * len(wrong_), 1)
    holds(name + ', reverse of lines that are no value', ['reverse', path, '-'] + more, b'none\n' * len(wrong_), 1,
          given=b''.join(w.encode() + b'\n' for w in wrong_))
    if first:
        value = min(first)
        wanted = escaped(first[value]) + b'\n'
        holds(name + ', reverse of one word', ['reverse', path, str(value)] + more, wanted, 0)
        holds(name + ', reverse of a word with zeros', ['reverse', path, str(value).zfill(20)] + more, wanted, 0)
        holds(name + ', reverse of no line', ['reverse', path, '-'] + more, b'', 0)


def test_forms():
    for held in HELD:
        for name, path, more in forms(held):
            first_keys(name, path, sorted(held.pairs.items()), more)


def test_no_values():
    holds('no values', ['reverse', good_file()], b'', 2, b'<VALUE>', b'1\n')
