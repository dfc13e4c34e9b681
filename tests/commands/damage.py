"""Files that are damaged: each damage is found."""
import random
import struct

from .cases import NAMES, RUN, held_in, here, holds, made, put, run, said
from .formats import BLOCK, BLOCKS, INDEX, crc32c, escaped, in_blocks, in_buckets, index_of, indexed, sealed
from .index import LARGE, returns


def harm(chance, good, sort):
    """Flips bits, cuts, joins or leaves a part out, by a number below 10."""
    if sort < 6:
        bad = bytearray(good)
        for _ in range(chance.choice([1, 1, 1, 2, 3, 8])):
            bad[chance.randrange(len(bad))] ^= 1 << chance.randrange(8)
        return bytes(bad)
    if sort < 8:
        return good[:chance.randrange(len(good))]
    if sort == 8:
        return good + chance.choice([good, sealed(0, b'a\x85'), b'\n', b'\0' * chance.randrange(1, 100), good[:chance.randrange(1, 30)]])
    cut, more = sorted(chance.sample(range(len(good) + 1), 2))
    return good[:cut] + good[more:]


def fault_told(file):
    """What is told of a damaged file whose header says that it has an index. Nothing is known of others."""
    if len(file) < 24 or file[:10] != b'ztri\x89\x8a\r\n' + struct.pack('<H', 1):
        return b''
    tag, size, crc = struct.unpack('<HQI', file[10:24])
    if tag not in (INDEX, BLOCKS):
        return b''
    size += 24
    if tag == BLOCKS and size <= len(file):
        table = file[24:size]
        many = int.from_bytes(table[:8], 'little')
        if crc == crc32c(file[:20] + table) and len(table) == 8 + 4 * -(-many // BLOCK):
            size += many
        else:
            size = len(file)
    if size == len(file):
        return b'the file is damaged: its bytes do not have the checksum that it was written with\n'
    return b'the file is cut short: get all of it\n' if len(file) < size else b'bytes follow what is sealed: get the file alone\n'


def test_tries():
    """Damages a sealed file by flips, cuts and joins: each is found, by a command that reads and by `verify`."""
    chance = random.Random(1)
    path, good = here('damaged'), held_in(made('a file to damage', NAMES, ['-k', 'hash']))
    found = 0
    for n in range(RUN.damaged):
        sort = n % 10
        bad = harm(chance, good, sort)
        if bad == good:
            continue
        put(path, bad)
        words = [['verify', path], ['list', path], ['get', path, 'amp'], ['verify', path]][n % 4]
        ran = run(words)
        if ran.returncode == 2 and ran.stdout == b'' and ran.stderr:
            found += 1
        else:
            said(f'damage {n} of sort {sort} is not found: {ran.returncode}, {ran.stdout[:50]!r}, {ran.stderr!r}', False)
    said(f'{found} damaged files were found', found > RUN.damaged * 0.99)


def test_indexes():
    """Damages the file of an index, which is found; and an index under a right seal, where `verify` agrees with the reader here."""
    chance = random.Random(2)
    path, good = here('damaged index'), held_in(made('an index to damage', NAMES, ['--index']))
    found = 0
    for n in range(RUN.damaged // 5):
        bad = harm(chance, good, n % 10)
        if bad == good:
            continue
        put(path, bad)
        words = [['verify', path], ['get', path, 'amp'], ['get', path, '-'], ['verify', path],
                 ['get', path, 'amp', '--no-check']][n // 10 % 5]
        ran = run([*words], b'amp\n')
        told = b'zerotrie: ' + path.encode() + b': ' + fault_told(bad)
        if ran.returncode == 2 and ran.stdout == b'' and told in ran.stderr:
            found += 1
        else:
            said(f'damage {n} of an index is not found by {words}: {ran.returncode}, {ran.stdout[:50]!r}, {ran.stderr!r}', False)
    said(f'{found} damaged files of an index were found', found > RUN.damaged // 5 * 0.98)
    pairs = {b'key %d' % n * (1 + n % 6): n * 2 ** 57 % (2 ** 64 - 1) for n in range(60)}
    seed = next(seed for seed in range(8) if max(map(len, in_buckets(pairs.items(), seed, 24))) <= 16)
    good = index_of(in_buckets(pairs.items(), seed, 24), seed)
    said('an index to damage', indexed(good) == pairs)
    taken = none = 0
    for n in range(RUN.damaged // 5):
        bad = harm(chance, good, n % 10)
        put(path, in_blocks(bad) if n % 2 else sealed(INDEX, bad))
        held = indexed(bad)
        ran = run(['verify', path])
        told = b'' if held is not None else b'zerotrie: ' + path.encode() + b': the index in it is malformed\n'
        if (ran.returncode, ran.stdout, ran.stderr) != (0 if held is not None else 2, b'', told):
            said(f'damage {n} under a right seal, verify: {ran.returncode}, {ran.stdout[:50]!r}, {ran.stderr!r}', False)
        if held is None:
            none += 1
            if n % 3 == 0:
                returns(f'damage {n} under a right seal', path, list(pairs))
            continue
        taken += 1
        ran = run(['get', path, '--escaped', '-'], b''.join(escaped(key) + b'\n' for key in {**pairs, **held}))
        wanted = b''.join(b'%d\n' % held[key] if key in held else b'none\n' for key in {**pairs, **held})
        if ran.stdout != wanted or ran.returncode != (0 if set(pairs) <= set(held) else 1):
            said(f'damage {n} under a right seal, get: {ran.returncode}, {ran.stdout[:50]!r}, {ran.stderr!r}', False)
    said(f'{taken} indexes of damaged bytes, and {none} that are none', min(taken, none) > RUN.damaged // (200 if RUN.fast else 100))


def test_large_index():
    """Look-ups in a large index, of which only some blocks are read: each has its answer or is told of the damage."""
    good, harmed, keys = held_in(made('a large index to damage', LARGE, ['--index'])), here('harmed index'), list(LARGE)
    chance, answered, told = random.Random(4), 0, 0
    for n in range(RUN.damaged // 10):
        bad = bytearray(good)
        if n % 8 == 7:
            bad = bad[:chance.randrange(len(bad))]
        else:
            bad[chance.randrange(200 if n % 8 == 0 else len(bad))] ^= 1 << chance.randrange(8)
        put(harmed, bad)
        key = chance.choice(keys)
        ran = run(['get', harmed, key])
        if (ran.returncode, ran.stdout, ran.stderr) == (0, b'%d\n' % LARGE[key], b''):
            answered += 1
        elif (ran.returncode, ran.stdout) == (2, b'') and b'zerotrie: ' + harmed.encode() + b': ' + fault_told(bytes(bad)) in ran.stderr:
            told += 1
        else:
            said(f'damage {n} of a large index: {ran.returncode}, {ran.stdout[:50]!r}, {ran.stderr!r}', False)
        if n % 10 == 0:
            holds(f'damage {n} of a large index, verify', ['verify', harmed], b'', 2, fault_told(bytes(bad)))
    said(f'a damaged large index: {answered} answers, {told} errors', answered > RUN.damaged // 50 and told > RUN.damaged // 100)
