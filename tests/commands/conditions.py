"""Searches and listings with conditions that all hold."""
import random
import re

from .cases import LOWER, NAMES, RUN, here, holds, lines_of, made
from .listing import in_listed_order
from .search import edits_between, edits_of_front, is_within, lines_far


def test_conditions():
    """In every kind and order, against a scan."""
    chance = random.Random(73)
    patterns = [('*e*', rb'.*e.*'), ('??r*', rb'..r.*'), ('[a-m]*;', rb'[a-m].*;'), ('*', rb'.*'),
                ('{*e,[a-m]}*{q,;}', rb'(.*e|[a-m]).*[q;]')]
    path = here('chosen')
    for kind, pairs in [('simple', NAMES), ('ignore', LOWER), ('hash', NAMES), ('ext', NAMES)]:
        made('chosen', pairs, ['--kind', kind])
        stored = sorted(pairs.items()) if kind in ('simple', 'ignore') else in_listed_order(path, pairs, [])
        folds = (lambda bytes: bytes.lower()) if kind == 'ignore' else (lambda bytes: bytes)
        for _ in range(12 if RUN.fast else 900):
            words, tests, far = [], [], None
            prefix, low, high = (chance.choice(sorted(pairs))[:chance.randrange(3)].decode() for _ in range(3))
            if chance.random() < 0.6:
                words += ['-p', prefix]
                tests.append(lambda key: key.lower().startswith(prefix.lower().encode()) if kind == 'ignore'
                             else key.startswith(prefix.encode()))
            if chance.random() < 0.5:
                words += ['--from', low]
                tests.append(lambda key: folds(key) >= folds(low.encode()))
            if chance.random() < 0.5:
                end = chance.choice(['--below', '--to'])
                words += [end, high]
                tests.append(lambda key: folds(key) < folds(high.encode()) or end == '--to' and folds(key) == folds(high.encode()))
            if chance.random() < 0.3:
                spared, other = chance.choice(patterns[:-2])
                words += ['--not', spared]
                tests.append(lambda key: not re.fullmatch(other, folds(key), re.S))
            command = 'list' if '--not' not in words and (chance.random() < 0.2 or not words) else 'search'
            if command == 'search' or not words:
                sort = chance.randrange(4)
                command = 'search'
                if sort == 0:
                    pattern, same = chance.choice(patterns)
                    words += ['--glob', pattern]
                    tests.append(lambda key: re.fullmatch(same, folds(key), re.S))
                elif sort == 1:
                    near = chance.choice(sorted(pairs)).decode()[1:]
                    words += ['--fuzzy', near, '-e', '2']
                    if chance.random() < 0.3:
                        words += ['--beginnings']
                        far = lambda key: edits_of_front(folds(near), folds(key))
                    else:
                        far = lambda key: edits_between(folds(near), folds(key).decode())
                    tests.append(lambda key: far(key) <= 2)
                elif sort == 2 or not words:
                    letters = bytes(chance.choice(sorted(pairs))[::2])[:3]
                    words += ['--subsequence', letters.decode()]
                    tests.append(lambda key: is_within(folds(letters), folds(key)))
            if command == 'list' and chance.random() < 0.5:
                words += ['-S']
            is_stored = command == 'list' and not {'-S', '--from', '--below', '--to'} & {*words}
            wanted = [pair for pair in (stored if is_stored else sorted(stored)) if all(test(pair[0]) for test in tests)]
            if far:
                wanted.sort(key=lambda pair: far(pair[0]))
            holds(f'{kind}: {command} {words}', [command, path, *words], lines_of(wanted), 0)
            holds(f'{kind}: {command} {words}, counted', [command, path, *words, '-c'], b'%d\n' % len(wanted), 0)
            holds(f'{kind}: {command} {words}, the first', [command, path, *words, '-n', '1'], lines_of(wanted[:1]), 0)
            if far:
                holds(f'{kind}: {command} {words}, how far', [command, path, *words, '--distance'], lines_far(wanted, far), 0)
