"""Columns of pandas and arrays of numpy: what is joined, what is built, and what is an error."""

import pytest

numpy, pandas = pytest.importorskip("numpy"), pytest.importorskip("pandas")
from helpers import told  # noqa: E402
from zerotrie import Index, StrTrie, ZeroTrieError  # noqa: E402

WORDS = [f"{number * 7919 % 100003:06}" for number in range(20000)]
TABLE = pandas.Series(numpy.arange(len(WORDS)), index=WORDS)


@pytest.fixture(params=(StrTrie, Index))
def mapping(request):
    return request.param.build(TABLE)


def test_build():
    trie = StrTrie.build(TABLE)
    assert trie == TABLE.to_dict() and len(trie) == len(Index.build(TABLE)) == len(WORDS)
    made = StrTrie.build(zip(numpy.array(["a", "b"]), numpy.array([1, 2**64 - 1], dtype="uint64")))
    assert dict(made) == {"a": 1, "b": 2**64 - 1}


def asked():
    """Keys of which some are not there."""
    return pandas.Series([word + "x" * (place % 7 == 0) for place, word in enumerate(WORDS[::2])])


@pytest.mark.parametrize("gap", (None, float("nan"), pandas.NA))
def test_join_with_gaps(mapping, gap):
    column = asked().astype(object)
    column[5] = gap
    wanted = column.map(TABLE.to_dict()).fillna(-1).astype("int64").tolist()
    assert mapping.get_many(column, missing=-1).tolist() == wanted
    mapped = column.map(mapping.get, na_action="ignore")
    assert mapped.fillna(-1).astype("int64").tolist() == wanted


def test_join():
    trie, column = StrTrie.build(TABLE), asked()
    joined = numpy.asarray(trie.get_many(column, missing=-1))
    assert joined.dtype == "int64" and joined.tolist() == column.map(TABLE.to_dict()).fillna(-1).tolist()
    assert numpy.asarray(trie.get_many(column[1:7])).dtype == "uint64"
    assert column[:9].map(trie).equals(column[:9].map(TABLE))
    assert trie.get_many(numpy.array(WORDS[:3])).tolist() == [0, 1, 2]


def test_many(mapping):
    """More keys than one call looks up."""
    many = WORDS * 8
    assert mapping.get_many(many).tolist() == list(range(len(WORDS))) * 8
    many[-1] = 5
    told(TypeError, lambda: mapping.get_many(many), "a key is text or bytes, not int: key 159999 is 5")


def test_errors():
    told(OverflowError, lambda: StrTrie.build({"a": 2**63}).get_many(["a"] * 3, missing=-1), "not negative")
    for pairs, kind, words in (
        (pandas.Series([1.0, None], index=["a", "b"]), TypeError, "of key 1, 'b', is nan"),
        (pandas.DataFrame({"k": ["a"], "v": [1]}), TypeError, "a value is a whole number, not Series"),
        (pandas.Series([1, 2], index=["a", "b"], dtype="float32"), TypeError, "not float"),
        (pandas.Series([1, 2], index=["a", "a"]), ZeroTrieError, "key 1 is 'a'"),
    ):
        told(kind, lambda: StrTrie.build(pairs), words)
