"""What changed from one file to another."""
import os
import random
import subprocess

from .cases import NAMES, held_in, here, holds, lines_of, put, run, said
from .formats import escaped, sealed, text


def changes_of(old, new):
    """The lines of what changed from one map to another."""
    lines = []
    for key in sorted({*old, *new}):
        if key not in new:
            lines.append(b'-\t%s\t%d\n' % (escaped(key), old[key]))
        elif key not in old:
            lines.append(b'+\t%s\t%d\n' % (escaped(key), new[key]))
        elif old[key] != new[key]:
            lines.append(b'~\t%s\t%d\t%d\n' % (escaped(key), old[key], new[key]))
    return b''.join(lines)


def test_files():
    """Compares files of every kind and form, each against the maps."""
    given = random.Random(7)
    other = {key: value + given.randrange(2) for key, value in NAMES.items() if given.randrange(9)}
    other.update({b'new%d' % n: n for n in range(40)})
    odd = {b'': 7, b'a\tb': 1, b'a\nb': 2, b'\xff\xfe': 2 ** 64 - 1}
    maps = [('names', NAMES), ('other names', other), ('bytes', odd), ('other bytes', {**odd, b'a\tb': 0, b'\\': 3}), ('no pairs', {}),
            ('one', {b'amp': 38})]
    files = []
    for name, pairs in maps:
        for kind in ['simple', 'hash', 'ext']:
            for form in [[], ['--tagged']]:
                path = here(f'{name} {kind} {len(form)}')
                if run(['build', '-', '-o', path, '--kind', kind, *form], lines_of(pairs)).returncode == 0:
                    files.append((path, pairs))
    said(f'{len(files)} files to compare', len(files) == 32)
    for path, old in files:
        for against, new in given.sample(files, 6) + [(path, old)]:
            name = f'diff of {os.path.basename(path)} and {os.path.basename(against)}'
            holds(name, ['diff', path, against], changes_of(old, new), 0 if old == new else 1)
            holds(f'{name}, quiet', ['diff', path, against, '-q'], b'', 0 if old == new else 1)
    path, old = files[0]
    holds('diff of standard input', ['diff', '-', path], b'', 0, given=held_in(path))
    holds('diff of one stream', ['diff', '-', '/dev/stdin'], b'', 2, b"standard input can't be both files")
    bare = put('bare', text(sorted(other.items()), 0, False))
    names_bare = put('names bare', text(sorted(NAMES.items()), 0, False))
    holds('diff of bare files', ['diff', names_bare, bare, '--bare-kind', 'simple'], changes_of(NAMES, other), 1)
    holds('diff of a bare file that is not named', ['diff', path, bare], b'', 2, b'bare')
    whole = held_in(path)
    for at, flipped in [(30, 'flipped'), (len(whole) - 1, 'flipped at the end')]:
        damaged = put(flipped, whole[:at] + bytes([whole[at] ^ 1]) + whole[at + 1:])
        holds(f'diff of a damaged file, {at}', ['diff', damaged, path], b'', 2, flipped.encode())
        holds(f'diff against a damaged file, {at}', ['diff', path, damaged], b'', 2, flipped.encode())
    malformed = put('malformed', sealed(0, b'a\x81\x82'))
    holds('diff of a sealed file of malformed bytes', ['diff', path, malformed], b'', 2, b'a value follows a value')
    holds('diff of a missing file', ['diff', path, here('missing')], b'', 3, b'missing')
    holds('diff of one file', ['diff', path], b'', 2)
    holds('diff of a missing file, quiet', ['diff', '--quiet', path, here('missing')], b'', 3, b'missing')
    with open('/dev/full', 'wb') as full:
        ran = run(['diff', path, files[-1][0]], stdout=full, stderr=subprocess.PIPE)
    said(f'diff on a full device: {ran.stderr!r}', ran.returncode == 3 and b'standard output' in ran.stderr)
