"""What the tests of the program share: how a case is run and judged, files, and the pairs that they have."""
import collections
import html.entities
import json
import os
import pathlib
import resource
import signal
import subprocess
import types

from .formats import escaped, sealed, text

TOP = pathlib.Path(__file__).resolve().parents[2]
# A run that takes longer hangs: the disk of a busy machine may need a minute for a file that is synced.
PATIENCE = 300
# The program, the folder of the test that runs, how much is tried, and what was found.
RUN = types.SimpleNamespace(program=None, room=None, fast=False, damaged=0, cases=0, wrong=0)

# What is said of two pairs that have one key, behind their numbers.
SAME = b' have the same key; --duplicates first, sum or another gives it one value: '

NAMES = {k.encode(): n for n, k in enumerate(html.entities.html5)}
# The names in lower case, each with the value of the first that is so.
LOWER = {}
for key, value in NAMES.items():
    LOWER.setdefault(key.lower(), value)


def said(name, good):
    """Counts a case, and prints its name if it is wrong."""
    RUN.cases += 1
    if not good:
        RUN.wrong += 1
        print(name)


def run(words, given=b'', **more):
    """What the program does with these words and this standard input, if `more` names no other."""
    streams = {'stdin' if 'stdin' in more else 'input': given, 'capture_output': 'stdout' not in more and 'stderr' not in more}
    return subprocess.run([RUN.program, *words], **{'timeout': PATIENCE, **streams, **more})


def start(words, **more):
    """The program as it runs, whose standard input is still to be written."""
    return subprocess.Popen([RUN.program, *words], stdin=subprocess.PIPE, **more)


def holds(name, words, output, status, told=b'', given=b''):
    """Runs the program, and holds its output, its status and a part of what it told against what is wanted. A listing without a pair has
    the status 1."""
    if words[0] in ('list', 'search') and status == 0 and output in (b'', b'0\n', b'{}\n'):
        status = 1
    ran = run(words, given)
    style = status not in (2, 3) or ran.stderr.startswith(b'zerotrie: ')
    silent = status < 2 and not told
    said(f'{name}: status {ran.returncode}, {ran.stdout[:200]!r}, {ran.stderr[:300]!r}',
         (ran.returncode, ran.stdout) == (status, output) and told in ran.stderr and silent == (not ran.stderr) and style)


def asks(name, words, status):
    """Runs the program, which is to print nothing, and holds its status."""
    ran = run(words)
    said(f'{name}: status {ran.returncode}, {ran.stdout[:200]!r}, {ran.stderr[:300]!r}',
         (ran.returncode, ran.stdout, ran.stderr) == (status, b'', b''))


def here(name):
    """The path of a file in the folder of the test."""
    return os.path.join(RUN.room, name)


def held_in(path):
    with open(path, 'rb') as file:
        return file.read()


def put(name, content):
    """Writes a file, and returns its path."""
    with open(here(name), 'wb') as out:
        out.write(content.encode() if isinstance(content, str) else content)
    return here(name)


def left_in(folder):
    """The new files that are left in a folder."""
    return sorted(name for name in os.listdir(folder) if '.zerotrie-' in name)


def lines_of(pairs):
    """Pairs, or those of a map, as `build` reads them."""
    return b''.join(escaped(k) + b'\t%d\n' % v for k, v in (pairs.items() if isinstance(pairs, dict) else pairs))


def build_of(pairs, words):
    return run(['build', '-', '-o', '-', *words], lines_of(pairs))


def made(name, pairs, words=()):
    """Builds a file, and returns its path."""
    build = run(['build', '-', '-o', here(name), *words], lines_of(pairs))
    said(f'{name}: {build.stderr!r}', build.returncode == 0)
    return here(name)


def refused(name, words, given, status, *told):
    """Holds that no file is made, for this reason, and that the old file stays."""
    path = put('old', b'old')
    for part in told:
        holds(f'{name}, {part!r}', ['build', '-', '-o', path, *words], b'', status, part, given)
    left = held_in(path)
    said(f'{name}: the old file is now {left[:50]!r}, beside {os.listdir(RUN.room)}', left == b'old' and not left_in(RUN.room))


def on_full_disk(path):
    """Builds a file that is larger than there is room for."""
    limit = lambda: (resource.setrlimit(resource.RLIMIT_FSIZE, (1000, 1000)), signal.signal(signal.SIGXFSZ, signal.SIG_IGN))
    return run(['build', '-', '-o', path], lines_of((b'%05d' % n, n) for n in range(5000)), preexec_fn=limit)


def as_json(value):
    return json.dumps(value, separators=(',', ':'), ensure_ascii=False).encode() + b'\n'


def json_key(key):
    """A key in JSON: a string, or a list of its bytes if it is not UTF-8."""
    try:
        return key.decode()
    except UnicodeDecodeError:
        return list(key)


# Two pairs as lines, and the file of them.
FEW, SEALED_FEW = lines_of([(b'ad', 22), (b'adef', 33)]), sealed(0, b'ad\x90\x06ef\x90\x11')
# Maps that are written here, each with the kind of its trie.
Held = collections.namedtuple('Held', 'name kind tag pairs bare')
HELD = [Held(name, kind, tag, pairs, text(sorted(pairs.items()), 0, tag != 0)) for name, kind, tag, pairs in [
    ('HTML names', 'simple', 0, NAMES), ('no pairs', 'simple', 0, {}),
    ('bytes', 'hash', 3, {
        b'': 7, b'a\tb': 1, b'a\nb': 2, b'a\\': 3, b'a\rb\x00\x7f': 4, 'äö'.encode(): 2 ** 64 - 1, 'äöü'.encode(): 5})]]


def forms(held):
    """The files of a map: each with its name, its path, and the words that say how it is read."""
    tagged = put('tagged', bytes([held.tag]) + held.bare)
    return [(held.name, tagged, []), (held.name + ', bare', put('bare', held.bare), ['--bare-kind', held.kind]),
            (held.name + ', sealed', put('sealed', sealed(held.tag, held.bare)), []), (held.name + ', unchecked', tagged, ['--no-check'])]


def good_file():
    """The tagged bytes of the names."""
    return put('good', bytes([HELD[0].tag]) + HELD[0].bare)
