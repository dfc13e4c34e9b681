"""Unions and the like, by operators and by functions, beside dicts."""

import random

import zerotrie
from helpers import refused, word
from zerotrie import EXTENDED_CAPACITY, IGNORE_CASE, Kind, PERFECT_HASH, SIMPLE_ASCII, StrTrie, ZeroTrie, ZeroTrieError


RULES = {"first": lambda them: them[0], "last": lambda them: them[-1], "sum": sum, "min": min, "max": max}


def selections(tries, how, values, first):
    """What each call makes of the tries, beside the values of the keys that it takes. The values
    are those that each key has in them, and the first of them has the keys of `first`."""
    return [(zerotrie.union(tries, how), values),
            (zerotrie.intersection(tries, how), {key: them for key, them in values.items() if len(them) == len(tries)}),
            (zerotrie.difference(tries), {key: them for key, them in values.items() if len(them) == 1
                                          and key in first}), (zerotrie.symmetric_difference(tries, how),
                                                               {key: them for key, them in values.items()
                                                                if len(them) % 2})]


def cased(low):
    """The lower-case keys in random cases, in which a beginning is spelled in one way."""
    upper = {key[:end] for key in low for end in range(1, len(key) + 1) if random.random() < 0.5}
    return {"".join(byte.upper() if key[: at + 1] in upper else byte for at, byte in enumerate(key)): value for key,
            value in low.items()}


def test_operators():
    """Sets: new tries, whose keys are compared as bytes."""
    for number in range(60):
        left = {word(4): n for n in range(random.randrange(40))}
        right = {word(4): 100 + n for n in range(random.randrange(40))}
        kind = (SIMPLE_ASCII, PERFECT_HASH, EXTENDED_CAPACITY)[number % 3]
        a, b = StrTrie.build(left, kind), StrTrie.build(right)
        for other in (b, right, ZeroTrie(b)):
            assert a | other == {**left, **right}
            assert a & other == {key: left[key] for key in left.keys() & right.keys()}
            assert a - other == {key: left[key] for key in left.keys() - right.keys()}
        assert right | a == {**right, **left} and type(right | a) is StrTrie
        assert a - set(right) == a - b == a - b.keys() and a & {"a"} == a & {b"a"}
        assert (a | b).kind == (EXTENDED_CAPACITY if kind == EXTENDED_CAPACITY else SIMPLE_ASCII)


def test_operators_in_any_case():
    names = StrTrie.build({"Accept": 1, "Host": 2}, IGNORE_CASE)
    assert names | {"host": 3} == {"Accept": 1, "Host": 3} and (names | {"host": 3})["HOST"] == 3
    assert names & {"HOST"} == {"Host": 2} and names - {"HOST"} == {"Accept": 1}
    assert (StrTrie.build({"HOST": 5}) | names).kind == IGNORE_CASE
    assert names ^ {"HOST": 3, "x": 4} == {"Accept": 1, "x": 4}
    assert {"x": 4} ^ names == {"Accept": 1, "Host": 2, "x": 4}


def test_what_is_no_key():
    names = StrTrie.build({"Accept": 1, "Host": 2}, IGNORE_CASE)
    # what can be no key is in no trie, as `in` has it
    anything = {"HOST", b"Accept", 3, None, 2.5, ("Host",), "\ud800", frozenset()}
    assert names & anything == names and names - anything == {}
    assert not any(one in names for one in anything - {"HOST", b"Accept"})
    for kind in (None, EXTENDED_CAPACITY):
        plain = StrTrie.build({"in": 1, "on": 2}, kind)
        for other in ({"in", 3, None, "\ud800"}, {"in": 4, 3: 4}, {"in": 1}.keys() | {3}):
            assert plain & other == {"in": 1} and plain - other == {"on": 2}
            assert plain & {3} == {} == plain - plain
    for wrong in (5, "Host", ["Host"]):
        refused(TypeError, lambda: names & wrong)
        refused(TypeError, lambda: names | wrong)
        refused(TypeError, lambda: names ^ wrong)
        refused(TypeError, lambda: names - wrong)


def test_random():
    """Any number of tries of any kinds."""
    for number in range(300):
        dicts = [{word(3): random.randrange(9) for _ in range(random.randrange(25))} for _ in range(1 + number % 5)]
        tries = [random.choice((StrTrie, ZeroTrie)).build(them, random.choice(list(Kind)[:3])) for them in dicts]
        values = {}
        for them in dicts:
            for key, value in them.items():
                values.setdefault(key, []).append(value)
        how, rule = random.choice(list(RULES.items()))
        for made, wanted in selections(tries, how, values, dicts[0]):
            assert type(made) is type(tries[0])
            assert dict(StrTrie(made)) == {key: rule(them) for key, them in wanted.items()}
        assert StrTrie(tries[0] ^ tries[-1]) == {key: {**dicts[0], **dicts[-1]}[key]
                                                 for key in dicts[0].keys() ^ dicts[-1].keys()}
        if max(map(len, values.values()), default=0) > 1:
            # the error names the first key, and the first two tries that have it
            error = refused(ZeroTrieError, zerotrie.union, tries, "refuse")
            key = min((key for key, them in values.items() if len(them) > 1), key=str.encode)
            places = [place for place, them in enumerate(dicts) if key in them]
            assert (error.status, error.key, error.index, error.other) == (6, key.encode(), *places[:2]), error
            assert f"tries {places[0]} and {places[1]} have {key.encode()!r}" in str(error)
        else:
            assert zerotrie.union(tries, "refuse") == zerotrie.union(tries, "sum")
        # and the first two tries whose values differ
        unequal = {key: them for key, them in values.items() if len({*them}) > 1}
        if unequal:
            error = refused(ZeroTrieError, zerotrie.union, tries, "equal")
            key = min(unequal, key=str.encode)
            first, *others = [place for place, them in enumerate(dicts) if key in them]
            other = next(place for place in others if dicts[place][key] != dicts[first][key])
            assert (error.status, error.key, error.index, error.other) == (6, key.encode(), first, other), error
            assert str(error) == (f"tries {first} and {other} have other values of {key.encode()!r}: " f"{dicts[first][key]} and {dicts[other][key]}")
        else:
            assert zerotrie.union(tries, "equal") == zerotrie.union(tries, "first")
            equal = zerotrie.union([*tries, *tries], "equal")
            assert equal == zerotrie.union(tries) == zerotrie.intersection([equal, equal], "equal")


def test_many():
    many_words = [StrTrie.build({f"{n:05d}": n for n in range(m, 9000, 8)}) for m in range(8)]
    assert zerotrie.union(many_words, "refuse") == {f"{n:05d}": n for n in range(9000)}
    assert zerotrie.union(many_words).kind == PERFECT_HASH
    assert zerotrie.union(many_words[:1] * 2, kind=EXTENDED_CAPACITY).kind == EXTENDED_CAPACITY


def test_errors():
    large = StrTrie.build({"a": 2**63, "b": 1})
    error = refused(ZeroTrieError, zerotrie.union, [umlaut := StrTrie.build({"\xfc": 1}), large, large], "sum")
    assert (error.status, error.key, error.index, error.other) == (25, b"a", 1, 2), error
    error = refused(ZeroTrieError, zerotrie.intersection, [large, large], "refuse")
    assert (error.status, error.key) == (6, b"a")
    assert len(zerotrie.intersection([large, large, umlaut], "refuse")) == 0
    error = refused(ZeroTrieError, zerotrie.symmetric_difference, [large, large, StrTrie.build({"b": 3})], "refuse")
    assert (error.status, error.key, error.index, error.other) == (6, b"b", 0, 1), error
    assert zerotrie.difference([large, large]) == {}
    error = refused(ZeroTrieError, zerotrie.union, [large, ZeroTrie(b"ab", SIMPLE_ASCII, check=False)])
    assert (error.status, error.index, error.at) == (26, 1, 2)
    assert "the bytes end where a key has to go on" in str(error)
    error = refused(ZeroTrieError, lambda: zerotrie.union([umlaut], kind=SIMPLE_ASCII))
    assert (error.status, error.key) == (1, b"\xc3\xbc"), error
    error = refused(ZeroTrieError, lambda: zerotrie.union([large, StrTrie.build({"B": 3})], kind=zerotrie.IGNORE_CASE))
    assert error.status == 4 and {error.index, error.other} == {0, 2}, error
    refused(ValueError, zerotrie.union, [])
    refused(ValueError, zerotrie.union, [large], "least")
    refused(TypeError, zerotrie.union, [{"a": 1}])


def test_random_in_any_case():
    """If a trie ignores case all are compared so, and the first one that has a beginning spells it."""
    for number in range(200):
        dicts = [cased({word(3): random.randrange(9) for _ in range(random.randrange(25))})
                 for _ in range(1 + number % 4)]
        kinds = [random.choice((IGNORE_CASE, SIMPLE_ASCII, PERFECT_HASH)) for _ in dicts]
        kinds[random.randrange(len(dicts))] = IGNORE_CASE
        tries = [random.choice((StrTrie, ZeroTrie)).build(them, kind) for them, kind in zip(dicts, kinds)]
        spelling, values = {}, {}
        for them in dicts:
            for key, value in them.items():
                for end in range(1, len(key) + 1):
                    spelling.setdefault(key[:end].lower(), key[end - 1])
                values.setdefault(key.lower(), []).append(value)
        low = [{key.lower(): value for key, value in them.items()} for them in dicts]
        spelled = {key: "".join(spelling[key[:end]] for end in range(1, len(key) + 1)) for key in values}
        how, rule = random.choice(list(RULES.items()))
        for made, wanted in selections(tries, how, values, low[0]):
            assert type(made) is type(tries[0]) and made.kind == IGNORE_CASE
            assert dict(StrTrie(made)) == {spelled[key]: rule(them) for key, them in wanted.items()}
        first, last = tries[0], tries[-1]
        if IGNORE_CASE in (kinds[0], kinds[-1]) and len(dicts) > 1:
            for other in (last, dicts[-1]):
                if kinds[0] != IGNORE_CASE and other is not last:
                    continue
                assert {key.lower(): n for key, n in StrTrie(first | other).items()} == {**low[0], **low[-1]}
                assert {key.lower() for key in StrTrie(first ^ other)} == low[0].keys() ^ low[-1].keys()
                assert dict(StrTrie(first & other)) == {key: n for key, n in dicts[0].items() if key.lower() in low[-1]}
                assert dict(StrTrie(first - other)) == {key: n for key, n in dicts[0].items()
                                                        if key.lower() not in low[-1]}
            rows = [(key, low[0].get(key), low[-1].get(key)) for key in {**low[0], **low[-1]}]
            found = [(row.key, row.before, row.after) for row in zerotrie.diff(StrTrie(first), last)]
            assert sorted((key.lower(), *values) for key,
                          *values in found) == sorted((row for row in rows if row[1] != row[2]), key=lambda row: row[0])
            assert found == sorted(found, key=lambda row: row[0])
            assert all(key in dicts[0] for key, before, _ in found if before is not None)


def test_in_any_case():
    mixed = StrTrie.build({"bar": 1, "Host": 2}, IGNORE_CASE)
    assert dict(mixed | {"Baz": 3, "x": 4}) == dict(mixed ^ {"BAz": 3, "x": 4}) == {"bar": 1, "baz": 3, "Host": 2,
        "x": 4}
    assert dict({"BAr": 3, "Ho": 4} | mixed) == {"BAr": 1, "Ho": 4, "Host": 2}
    assert dict(zerotrie.union([mixed, StrTrie.build({"h\xfc": 1})], kind=PERFECT_HASH)) == {"bar": 1, "Host": 2,
        "h\xfc": 1}
    error = refused(ZeroTrieError, lambda: zerotrie.union([mixed, mixed], "refuse"))
    assert (error.status, error.key, error.index, error.other) == (6, b"Host", 0, 1), error
    error = refused(ZeroTrieError, lambda: zerotrie.union([mixed, StrTrie.build({"a": 1, "q": 1, "Q": 2})]))
    assert (error.status, error.key, error.index) == (4, b"Q", 1) and "b'q': trie 1" in str(error), error
    error = refused(ZeroTrieError, lambda: mixed | {"host": 1, "HOST": 2})
    assert (error.status, error.key, error.index) == (6, b"Host", 1), error
    error = refused(ZeroTrieError, lambda: zerotrie.union([mixed, ZeroTrie(b"ab", IGNORE_CASE, check=False)]))
    assert (error.status, error.index, error.at) == (26, 1, 2), error
    error = refused(ZeroTrieError, lambda: mixed | {"\xfc": 1})
    assert (error.status, error.key) == (1, b"\xc3\xbc"), error
    # keys that only others have are spelled as they are there
    assert dict(StrTrie.build({"x": 1}, IGNORE_CASE) | {"FOO": 2}) == {"FOO": 2, "x": 1}
