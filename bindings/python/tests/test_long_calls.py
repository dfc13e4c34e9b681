"""What long calls cost beside others, and when Ctrl-C is served in them: within a part of a call that works in parts, and else
when the library returns, as PYTHON.md says. Times are of the processor, so other programs do not count."""

import gc
import signal
import time

import pytest
from zerotrie import Index, StrTrie, diff, reverse, union

pytestmark = pytest.mark.timed
WORDS = [f"{number:05}{letter}" for number in range(40000) for letter in "akz"]
PAIRS = {word: number for number, word in enumerate(WORDS)}
MANY = WORDS * 10


@pytest.fixture(scope="module")
def maps():
    """A trie, one with other values, and an index."""
    made = StrTrie.build(PAIRS), StrTrie.build({word: number + 1 for word, number in PAIRS.items()}), Index.build(PAIRS)
    gc.freeze()
    return made


def took(call):
    begin = time.process_time()
    call()
    return time.process_time() - begin


def least(call):
    return min(took(call) for _ in range(3))


def interrupted(call):
    """How long a call takes, and how long it does if Ctrl-C comes after an eighth of that. The timer is too coarse for the shortest."""
    whole = took(call)
    if whole < 0.04:
        return whole, 0
    begin, before = time.process_time(), signal.signal(signal.SIGPROF, signal.default_int_handler)
    signal.setitimer(signal.ITIMER_PROF, whole / 8)
    try:
        call()
    except KeyboardInterrupt:
        return whole, time.process_time() - begin
    finally:
        signal.setitimer(signal.ITIMER_PROF, 0)
        signal.signal(signal.SIGPROF, before)
    raise AssertionError("no interrupt came")


IN_PARTS = {
    "items": lambda trie, changed, index: list(trie.items()),
    "range": lambda trie, changed, index: list(trie.range()),
    "reversed": lambda trie, changed, index: list(reversed(trie.range("0", "1"))),
    "len": lambda trie, changed, index: len(StrTrie(bytes(trie), check=False)),
    "diff": lambda trie, changed, index: list(diff(trie, changed)),
    "fuzzy": lambda trie, changed, index: list(trie.fuzzy("12345", edits=3)),
    "glob": lambda trie, changed, index: list(trie.glob("*[1-8]*")),
    "get_many": lambda trie, changed, index: trie.get_many(MANY),
    "get_many of an index": lambda trie, changed, index: index.get_many(MANY),
}
AT_ONCE = {
    "build": lambda trie, changed, index: StrTrie.build(PAIRS),
    "union": lambda trie, changed, index: union([trie, changed]),
    "reverse": lambda trie, changed, index: reverse(trie),
    "validation": lambda trie, changed, index: [StrTrie(bytes(trie), check=True) for _ in range(20)],
    "nearest": lambda trie, changed, index: trie.nearest("zzzzzzzzzz", edits=8),
}


@pytest.mark.parametrize("name", IN_PARTS)
def test_interrupt_in_parts(name, maps):
    """A call in parts ends long before it would."""
    whole, cut = interrupted(lambda: IN_PARTS[name](*maps))
    assert cut < min(0.75 * whole, 1), (whole, cut)


@pytest.mark.parametrize("name", AT_ONCE)
def test_interrupt_at_once(name, maps):
    """One call of the library: the interrupt is served when that returns, and nothing is lost."""
    whole, cut = interrupted(lambda: AT_ONCE[name](*maps))
    assert cut < 2 * whole + 0.1, (whole, cut)
    trie, changed, _ = maps
    assert trie == PAIRS and trie.is_well_formed() and union([trie, changed]) == changed


def test_costs(maps):
    """What one call costs beside another, with room for a busy machine."""
    trie, changed, index = maps
    few = StrTrie.build({**PAIRS, "zzz": 1})
    listing, build = least(lambda: list(trie.range())), least(lambda: StrTrie.build(PAIRS))
    validation = least(lambda: trie.is_well_formed() and changed.is_well_formed())
    search = least(lambda: list(trie.fuzzy("12345", 2)))
    alone = least(lambda: [index.get(word) for word in WORDS])
    for name, call, most in (
        ("a diff of one key", lambda: list(diff(trie, few)), 4 * listing),
        ("a diff of all keys", lambda: list(diff(trie, changed)), 20 * listing),
        ("the first change", lambda: next(diff(trie, changed)), 4 * validation + 0.005),
        ("a union of two", lambda: union([trie, changed]), 4 * build),
        ("a table of values", lambda: reverse(trie), 10 * build),
        ("the nearest ten", lambda: trie.nearest("12345", 2), 4 * search),
        ("get_many of an index", lambda: index.get_many(WORDS), 3 * alone),
    ):
        time_of_it = least(call)
        assert time_of_it <= most, (name, time_of_it, most)
