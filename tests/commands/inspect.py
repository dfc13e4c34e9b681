"""What is inside a trie: its nodes, its drawing, and its report."""
import json
import re
import shutil
import subprocess

from .cases import HELD, forms, good_file, holds, run, said
from .formats import escaped, nodes


def looks_inside(name, path, bare):
    """Holds the dump of a trie against its nodes, and its drawing as far as its nodes and lines go."""
    all_nodes = list(nodes(bare, 0, 0, None, None))
    holds(name + ', dump', ['inspect', 'dump', path], b''.join(
        b'%d\t%d\t%s\t%s\t%s\n' % (place, depth, b'' if edge is None else escaped(bytes([edge])), meaning, own.hex().encode())
        for place, depth, above, edge, meaning, own in all_nodes), 0)
    for words, most in [([], 100), (['--limit', '3'], 3), (['-n', '0'], 0)]:
        ran = run(['inspect', 'dot', path, *words])
        found = re.findall(rb'^  n(\d+) (?:\[shape|-> n(\d+) )', ran.stdout, re.M)
        wanted = []
        for place, _, above, *_ in all_nodes[:most]:
            wanted.append((b'%d' % place, b''))
            if above is not None:
                wanted.append((b'%d' % above, b'%d' % place))
        said(f'{name}, dot {words}: status {ran.returncode}, {ran.stdout[:200]!r}', ran.returncode == 0 and found == wanted)
        if shutil.which('dot'):
            drawn = subprocess.run(['dot', '-Tsvg'], input=ran.stdout, capture_output=True)
            said(f'{name}, dot {words}: Graphviz does not read it', drawn.returncode == 0)


def reports(name, path, words, held):
    """Holds the report of a trie against its pairs and its nodes."""
    bare, pairs, all_nodes = held.bare, held.pairs, list(nodes(held.bare, 0, 0, None, None))
    sorts = [meaning.split()[0] for *_, meaning, _ in all_nodes]
    lines = [('kind', held.kind), ('bytes', len(bare)), ('pairs', len(pairs)), ('greatest value', max(pairs.values(), default='none')),
             ('bytes a key', '%d.%02d' % divmod(len(bare) * 100 // len(pairs), 100) if pairs else 'none'),
             ('depth', max((depth for _, depth, _, _, meaning, _ in all_nodes if meaning.startswith(b'value')), default=0)),
             ('nodes', len(all_nodes)), ('literals', sorts.count(b'literal')), ('spans', sorts.count(b'span')),
             ('branches', sorts.count(b'branch'))]
    groups = [(2, 2), (3, 4), (5, 8), (9, 16), (17, 32), (33, 64), (65, 128), (129, 256)]
    branches = [tuple(int(n) for n in re.findall(rb'^branch of (\d+) edges, sorted, offsets of width (\d+)', meaning)[0])
                for *_, meaning, _ in all_nodes if meaning.startswith(b'branch')]
    for low, high in groups:
        for width in range(1, 9):
            found = sum(low <= edges <= high and width == w for edges, w in branches)
            if found:
                lines.append((f'branches of {low if low == high else f"{low}-{high}"} edges, width {width}', found))
    report = ''.join(f'{n}\t{v}\n' for n, v in lines).encode()
    holds(name + ', stats', ['stats', path] + words, report, 0)
    headed = path.encode() + b':\n' + report
    holds(name + ', stats of two files', ['stats', path, path] + words, headed * 2, 0)
    holds(name + ', stats of two files, one of them missing', ['stats', path, path + ' ', path] + words,
          headed * 2, 3, path.encode() + b' : ')
    holds(name + ', stats as text', ['stats', path, '--format', 'text'] + words, report, 0)
    ran = run(['stats', path, '--format', 'json', *words])
    holds(name + ', stats of two files as JSON', ['stats', path, path, '-f', 'json'] + words,
          (b'{"file":' + json.dumps(path).encode() + b',' + ran.stdout[1:]) * 2, 0)
    found = json.loads(ran.stdout)
    said(f'{name}, stats as JSON: {ran.stdout!r}', ran.returncode == 0 and ran.stdout.endswith(b'}\n')
         and (found['kind'], found['bytes'], found['pairs'], found['nodes']) == (held.kind, len(bare), len(pairs), len(all_nodes)))


def test_forms():
    for held in HELD:
        (name, path, _), *_ = files = forms(held)
        looks_inside(name, path, held.bare)
        for name, path, words in files[:3]:
            reports(name, path, words, held)


def test_options():
    holds('a limit of a dump', ['inspect', 'dump', good_file(), '-n', '3'], b'', 2, b'--limit is for inspect dot')
