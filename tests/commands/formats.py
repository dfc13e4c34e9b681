"""The format of files, read and written by docs/FORMAT.md alone, and how keys are printed."""
import struct


def number(value, latent, form):
    """A number in the low bits of a lead of the form and in bytes of seven bits after it."""
    out, more = [], 0
    while value >= latent:
        value -= latent
        out.append(value % 128 + more)
        more, value = 128, value // 128
    out.append(value + (latent if more else 0) + form * 2 * latent)
    return bytes(reversed(out))


def text(pairs, depth, spans):
    """The text of sorted pairs, whose keys have their first `depth` bytes in common. It hashes no table."""
    out = b''
    if pairs and len(pairs[0][0]) == depth:
        out, pairs = number(pairs[0][1], 16, 4), pairs[1:]
    if not pairs:
        return out
    first, last = pairs[0][0], pairs[-1][0]
    end = depth
    while end < min(len(first), len(last)) and first[end] == last[end]:
        end += 1
    if end > depth:
        run, at = first[depth:end], 0
        while at < len(run):
            high = at
            while high < len(run) and run[high] >= 128:
                high += 1
            if high > at:
                out += number(high - at, 16, 5) + run[at:high]
                at = high
            else:
                out += run[at:at + 1]
                at += 1
        return out + text(pairs, end, spans)
    groups = {}
    for pair in pairs:
        groups.setdefault(pair[0][depth], []).append(pair)
    assert len(groups) < 16 or not spans, 'this writer hashes no table'
    targets = [text(group, depth + 1, spans) for group in groups.values()]
    ends, total = [], 0
    for target in targets:
        ends.append(total)
        total += len(target)
    width = 0
    while 256 ** (width + 1) <= total:
        width += 1
    table = b''.join(bytes(e >> 8 * k & 255 for e in ends[1:]) for k in range(width, -1, -1))
    return out + number(256 * width + len(groups) % 256, 32, 3) + bytes(groups) + table + b''.join(targets)


def crc_table():
    table = []
    for n in range(256):
        for _ in range(8):
            n = n >> 1 ^ 0x82F63B78 if n & 1 else n >> 1
        table.append(n)
    return table


CRC = crc_table()


def crc32c(data):
    crc = 0xFFFFFFFF
    for b in data:
        crc = crc >> 8 ^ CRC[(crc ^ b) & 255]
    return crc ^ 0xFFFFFFFF


assert crc32c(b'123456789') == 0xE3069283, 'the published check value of CRC-32C'


def sealed(tag, bare):
    """The sealed file of the bytes of a trie, by docs/FORMAT.md."""
    front = b'ztri\x89\x8a\r\n' + struct.pack('<HHQ', 1, tag, len(bare))
    return front + struct.pack('<I', crc32c(front + bare)) + bare


# the numbers of an index in a sealed file: as a whole, and in blocks of as many bytes
INDEX, BLOCKS, BLOCK = 24, 25, 65536


def table_of(bare):
    """The table of an index in blocks, by docs/FORMAT.md."""
    return struct.pack('<Q', len(bare)) + b''.join(struct.pack('<I', crc32c(bare[at:at + BLOCK])) for at in range(0, len(bare), BLOCK))


def in_blocks(bare):
    """The file of an index that is sealed in blocks."""
    return sealed(BLOCKS, table_of(bare)) + bare


def unsealed(file):
    """The number of the kind in a sealed file and the bytes of its trie or index. None if the file is not sealed."""
    if len(file) < 24 or file[:8] != b'ztri\x89\x8a\r\n':
        return None
    version, tag, size, crc = struct.unpack('<HHQI', file[8:24])
    if tag == BLOCKS:
        content, bare = file[24:24 + size], file[24 + size:]
        whole = size == len(content) and content == table_of(bare)
    else:
        content = bare = file[24:]
        whole = size == len(bare)
    return (tag, bare) if whole and version == 1 and crc == crc32c(file[:20] + content) else None


def kind_of(file):
    """The name of the kind in a sealed or tagged file."""
    held = unsealed(file)
    return {0: 'simple', 8: 'ignore', 3: 'hash', 7: 'ext'}[held[0] if held else file[0]]


PI, GOLDEN = 0x243F6A8885A308D3, 0x9E3779B97F4A7C15


def hash_of(seed, key):
    """The hash of a key of an index, by docs/FORMAT.md."""
    def fold(a, b):
        return a * b % 2 ** 64 ^ a * b >> 64

    def eight(at):
        return int.from_bytes(key[at:at + 8], 'little')

    size = len(key)
    state, factor = seed ^ PI, (seed << 32 | seed >> 32) % 2 ** 64 ^ GOLDEN ^ size
    for at in range(0, size - 16, 16):
        state = fold(eight(at) ^ state, eight(at + 8) ^ factor)
    return fold(eight(max(size - 16, 0)) ^ state, eight(max(size - 8, 0)) ^ factor)


def bucket_of(count, hashed):
    return (hashed >> 32) * count >> 32


def indexed(bare):
    """The pairs of an index, by docs/FORMAT.md. None if the bytes are none."""
    if len(bare) < 16:
        return None
    seed, count = struct.unpack('<QQ', bare[:16])
    entries, pool = bare[16:24 + 8 * count], bare[24 + 8 * count:]
    if not 0 < count < 2 ** 32 or len(entries) != 8 * count + 8:
        return None
    entries, pairs, at = struct.unpack(f'<{count + 1}Q', entries), {}, 0
    for bucket in range(count):
        if entries[bucket] >> 32 != at:
            return None
        start = len(pairs)
        while at < entries[bucket + 1] >> 32:
            if at >= len(pool) or pool[at] >= 64:
                return None
            size, more, at = pool[at] & 31, pool[at] & 32, at + 1
            while more:
                if at >= len(pool):
                    return None
                size, more, at = size * 128 + (pool[at] & 127) + 32, pool[at] & 128, at + 1
            value, key = int.from_bytes(pool[at:at + 8], 'little'), pool[at + 8:at + 8 + size]
            at += 8 + size
            hashed = hash_of(seed, key)
            if at > len(pool) or key in pairs or bucket_of(count, hashed) != bucket or not entries[bucket] >> hashed % 32 & 1:
                return None
            pairs[key] = value
        if len(pairs) - start > 16:
            return None
    return pairs if at == len(pool) == entries[count] >> 32 else None


def in_buckets(pairs, seed, count):
    """The pairs by the buckets that their keys belong to."""
    buckets = [[] for _ in range(count)]
    for key, value in pairs:
        buckets[bucket_of(count, hash_of(seed, key))].append((key, value))
    return buckets


def index_of(buckets, seed, marks=0):
    """The bytes of an index with these buckets, by docs/FORMAT.md. The marks are set in each entry, beside those of its keys."""
    entries, pool = [], b''
    for bucket in buckets:
        entry = len(pool) << 32 | marks
        for key, value in bucket:
            entry |= 1 << hash_of(seed, key) % 32
            pool += number(len(key), 32, 0) + struct.pack('<Q', value) + key
        entries.append(entry)
    return struct.pack(f'<{len(entries) + 3}Q', seed, len(buckets), *entries, len(pool) << 32 | marks) + pool


def escaped(key):
    """A key as it is printed: with escapes for what is not UTF-8, for control characters, and for what turns other characters or is a
    mark."""
    names = {9: b'\\t', 10: b'\\n', 13: b'\\r', 92: b'\\\\'}
    hidden = [*range(32), *range(127, 160), *range(0x202A, 0x202F), *range(0x2066, 0x206A), 0xFEFF, *range(0xDC80, 0xDD00)]
    out = b''
    for c in key.decode('utf-8', 'surrogateescape'):
        own = c.encode('utf-8', 'surrogateescape')
        out += names.get(ord(c)) or (b''.join(b'\\x%02x' % b for b in own) if ord(c) in hidden else own)
    return out


def nodes(bytes_, place, depth, above, edge):
    """The nodes of a text in the order in which they lie, each with its place, its depth, the node above it, its edge, its
    meaning and its own bytes. It knows no hashed tables."""
    def read(at, latent):
        value, at = bytes_[at] % (2 * latent), at + 1
        if value < latent:
            return value, at
        value -= latent
        while True:
            value, more, at = value * 128 + bytes_[at] % 128 + latent, bytes_[at] >= 128, at + 1
            if not more:
                return value, at
    at = 0
    while at < len(bytes_):
        start, lead = at, bytes_[at]
        if lead < 128:
            at, meaning = at + 1, b'literal ' + escaped(bytes_[at:at + 1])
        elif lead < 160:
            value, at = read(at, 16)
            meaning = b'value %d' % value
        elif lead < 192:
            size, at = read(at, 16)
            at, meaning = at + size, b'span ' + escaped(bytes_[at:at + size])
        else:
            head, at = read(at, 32)
            count, width = head % 256 or 256, head // 256 + 1
            edges, at = bytes_[at:at + count], at + count
            ends = [sum(bytes_[at + block * (count - 1) + i] << 8 * (width - 1 - block) for block in range(width))
                    for i in range(count - 1)]
            at += width * (count - 1)
            meaning = b'branch of %d edges, sorted, offsets of width %d: ' % (count, width) + escaped(edges)
        yield place + start, depth, above, edge, meaning, bytes_[start:at]
        above, edge = place + start, None
        if lead >= 192:
            for e, begin, end in zip(edges, [0] + ends, ends + [len(bytes_) - at]):
                yield from nodes(bytes_[at + begin:at + end], place + at + begin, depth + 1, above, e)
            return
