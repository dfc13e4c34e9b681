"""What means another thing where `usize` has 32 bits stops the maker: the sources say what has 64 bits, and try what may not fit.

A cast to `usize` is of what is known to fit: of a name or an expression below, which somebody looked at.
"""
from tokens import CLOSING, Refused

BYTES = {f"{way}_{end}_bytes" for way in ("to", "from") for end in ("le", "be", "ne")}
# by the beginning of the place of a file: what is cast to `usize` there, or turned into bytes, and has at most 32 bits
FITS = {
    "": "BITS byte latent trailing_zeros() %128",
    "zerotrie/dense/": "bytes:cell bytes:suffix_count",
    "zerotrie_base/byte_phf/": "before end ends[] f1() f2() item key mixed() n number numbers[] place() turned()",
    "zerotrie_base/varint.rs": "%latent",
    "zerotrie_base/width.rs": "ilog2()",
    "zerotrie_core/branch.rs": "==sought",
    "zerotrie_core/node.rs": "%32 lead next",
    "zerotrie_core/offsets.rs": "rest[] table[]",
    "zerotrie_core/simd/edge_search.rs": "middle -first -sought",
    "zerotrie_index/builder.rs": "bytes:n",
    "zerotrie_index/in_blocks.rs": "bytes:crc32c()",
    "zerotrie_index/hash.rs": "1<<64",  # of 128 bits
    "zerotrie_index/opened.rs": "bucket_of() >>32",
    "zerotrie_index/placed.rs": "len",
    "zerotrie_index/reader.rs": "count",
    "zerotrie_index/well_formed.rs": "len",
    "zerotrie_lines/": "-b'0'",
    "zerotrie_queries/reports/lines.rs": "/keysasu128",  # hundredths
    "zerotrie_reverse/": "%latent place",
    "zerotrie_sealed/": "%256 bytes:VERSION bytes:checksum bytes:crc32c() bytes:number",
    "zerotrie_search/glob/": "letter place",
    "zerotrie_search/levenshtein/": "edits less",
    "zerotrie_search/sorted/": "edge last total_siblings",
}


def narrow(source, place, seen):
    """Stops at what may not fit. Adds to what was seen of the lists."""
    for at in source.each(*BYTES):
        before = source.before(at)
        if source.word(before) != ".":
            if source.match(source.before(source.before(before)), "usize::"):
                source.refuse(at, "a usize of bytes, whose number differs")
            continue
        known(source, at, place, seen, "bytes:" + operand(source, source.before(before)))
    for at in source.each("<"):
        number = source.match(at, "<<")
        if number and source.word(number).isdecimal() and int(source.word(number)) >= 32 and source.word(source.before(at)) == "1":
            before = source.before(source.before(source.before(at)))
            if source.word(before) != ">" or source.word(source.before(before)) != "u64":
                known(source, at, place, seen, f"1<<{source.word(number)}")
    for at in source.each("as"):
        if source.word(source.after(at)) == "usize":
            known(source, at, place, seen, operand(source, source.before(at)))


def operand(source, end):
    """Returns how the lists name what ends here: by the last name, with brackets behind it, or by the last operator in brackets."""
    start = opening(source, end)
    name = source.word(source.before(start)) if start < end else source.word(end)
    if start < end and not name.isidentifier():
        return last_operator(source.part(start + 1, end))
    return name + (source.word(start) + source.word(end)) * (start < end)


def last_operator(text):
    text = "".join(text.split())
    return text[max(text.rfind(it) for it in ("%", "==", ">>", "-", "/")) :] if not text.endswith("asu64") or "%" in text else "asu64"


def opening(source, end):
    """Returns the number of the token that opens the bracket at `end`, or `end`."""
    start, depth = end, 0
    while True:
        depth += (source.word(start) in CLOSING.values()) - (source.word(start) in CLOSING)
        if depth == 0:
            return start
        start -= 1


def known(source, at, place, seen, name):
    found = [(part, name) for part, names in FITS.items() if place.startswith(part) and name in names.split()]
    if not found and name != "bytes:asu64":
        source.refuse(at, f"{name} may not fit where usize has 32 bits: try it, or list it in maker/narrow.py")
    seen.update(found)


def all_seen(seen):
    """Stops if a list has what is in no source."""
    left = {(part, name) for part, names in FITS.items() for name in names.split()} - seen
    if left:
        raise Refused(f"maker/narrow.py: nothing has this form any more: {sorted(left)}")
