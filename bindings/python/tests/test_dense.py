"""Dense tables."""

import pickle
import random

import zerotrie
from helpers import refused, some, told
from zerotrie import ZeroTrieError, build_dense


def test_beside_dicts():
    rows = {p: {s: random.choice((70000, 1 << 40)) + random.randrange(50) for s in ("", *map(str, range(p % 30)))}
            for p in range(40)}
    rows = {str(p): row for p, row in rows.items() if p % 7}
    record = zerotrie.build_dense(rows)
    table = zerotrie.DenseTable(record)
    for p in map(str, range(41)):
        for s in ("", *map(str, range(31)), "/", "å"):
            assert table.get(p, s) == rows.get(p, {}).get(s), (p, s)
    assert table.get("0", "0", 7) == 7
    assert pickle.loads(pickle.dumps(table)).get("1", "0") == table.get("1", "0")
    for status, wrong in ((16, record[:-1]), (16, b""), (17, record + b"?")):
        assert refused(ZeroTrieError, zerotrie.DenseTable(wrong).get, "1", "").status == status
    for status, wrong in ((5, {"a": {"b/c": 1}}), (1, {"a": {"å": 1}}), (1, {b"\xFF": {"b": 1}})):
        assert refused(ZeroTrieError, zerotrie.build_dense, wrong).status == status
    refused(OverflowError, zerotrie.build_dense, {"a": {"b": -1}})
    assert zerotrie.DenseTable(zerotrie.build_dense({})).get("", "") is None


def test_keys():
    table = some()[2]
    for wrong in (3, None, "de", "de/AT", ("de",), ("de", "AT", 1), ["de", "AT"]):
        told(TypeError, lambda: table[wrong], "a key is a tuple of a prefix and a suffix, not ")
    told(TypeError, lambda: table.get(("de",)), "a key is a tuple")
    for rows, status, text in (
        ({"a": {"b/c": 1}}, 5, b"b/c"), ({"a": {"\xe5": 1}}, 1, "\xe5".encode()), ({b"\xff": {"b": 1}}, 1, b"\xff")
    ):
        error = told(ZeroTrieError, lambda: build_dense(rows), f"a text is {text!r}")
        assert (error.status, error.key) == (status, text)
