"""Threads that use one trie at once."""

import threading

from helpers import refused, together
from zerotrie import StrTrie, ZeroTrie, build


def test_look_ups(trie):
    def read():
        for _ in range(2000):
            assert trie["bar"] == 2 and trie.get("no") is None
        return True

    assert all(together(read))


def test_closed_meanwhile(trie):
    """Threads that ask one trie, set it up again and continue by one cursor: each step is whole, so none reads beyond the bytes."""
    other = build({"foo": 3})
    shared = trie.cursor()
    stop = threading.Event()

    def meddle():
        while not stop.is_set():
            refused(TypeError, trie.__init__, other)
            assert trie.get("foo") == 1 and trie["bar"] == 2 and "x" not in trie
            assert list(trie.items("f")) == [(b"foo", 1)]
            assert list(trie.get_many(["foo"] * 300))[-1] == 1 and trie.prefixes("food") == [(b"foo", 1)]
            closing = ZeroTrie(bytes(trie))
            threading.Thread(target=closing.close).start()
            try:
                while list(closing.items()) == list(trie.items()) and closing["foo"] == 1:
                    pass
            except ValueError as error:
                assert str(error) == "the trie is closed"
            shared.step(ord("f")), shared.probe(0), shared.run, shared.copy().take_value(), bool(shared)
    stopping = threading.Timer(0.3, stop.set)
    stopping.start()
    together(meddle)


def test_searches():
    many = StrTrie.build({f"{number:05}": number for number in range(20000)})
    assert len(set(together(lambda: len(many.fuzzy("12345", 2))))) == 1
