"""Text in, text out."""

import copy
import pickle

from helpers import refused
from zerotrie import StrTrie, ZeroTrie


def test_texts():
    """Text in, text out."""
    texts = {"zug": 1, "zürich": 2, "züri": 3, "": 4}
    read = StrTrie.build(texts)
    assert read == texts == dict(read) and sorted(read) == sorted(texts) and read.keys() == texts.keys()
    assert read.items() == texts.items()
    assert read.longest_prefix("zürichberg") == ("zürich", 2)
    assert read.longest_prefix("züri-x", at="-") == ("züri", 3)
    assert read.prefixes("zürichsee") == [("", 4), ("züri", 3), ("zürich", 2)]
    assert list(read.keys("zür")) == ["züri", "zürich"]
    assert read["zug"] == read["zug".encode()] == 1 and list(read.get_many(["zug", "x"], 9)) == [1, 9]
    assert "zug" in read.keys() & {"zug", "x"}
    assert type(copy.copy(read)) is type(pickle.loads(pickle.dumps(read))) is StrTrie
    assert pickle.loads(pickle.dumps(read)) == read
    assert ZeroTrie(read) != read and StrTrie(ZeroTrie(read)) == read == StrTrie(bytes(read))
    assert bytes(read) == bytes(ZeroTrie(read))
    assert StrTrie.build({}) == ZeroTrie.build({}) == {}
    assert hash(StrTrie.build({})) == hash(ZeroTrie.build({}))
    assert repr(StrTrie.build({"a": 5})) == "<StrTrie {'a': 5}, 2 bytes, SIMPLE_ASCII>"
    for call in (
        list, lambda one: one.items(), lambda one: one.longest_prefix(b"\xff"), lambda one: one.prefixes(b"\xff")
    ):
        refused(UnicodeDecodeError, lambda: list(call(StrTrie.build({b"\xff": 1}))))
    for wrong in ("–", "-–"):
        refused(ValueError, lambda: read.longest_prefix("x", at=wrong))
    assert read.longest_prefix("zug–", at="–".encode()) == ("zug", 1)
    assert read.longest_prefix("zugs", at="") == ("", 4)


def test_tags():
    tags = StrTrie.build({"en": 1, "en-GB": 2, "zh-Hant": 3})
    assert [tags.longest_prefix(tag, at="-_")
            for tag in ("en-GB-oxendict", "en_US", "english", "zh-Hans", "zh-Hant-TW")] == [("en-GB", 2), ("en", 1),
                None, None, ("zh-Hant", 3)]
