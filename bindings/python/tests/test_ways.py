"""The two ways to call the library, by the extension and by ctypes, beside each other."""

import array
import importlib
import inspect
import random
import sys
import types

import pytest
import zerotrie
from helpers import Long, Text


def outcome(call, *arguments):
    """What the call answers, or which exception of which text it raises."""
    try:
        answer = call(*arguments)
    except Exception as error:
        return type(error), str(error)
    return type(answer), answer


def imported(module):
    """The package anew, whose extension is this one."""
    for name in [name for name in sys.modules if name.partition(".")[0] == "zerotrie"]:
        del sys.modules[name]
    if module is None:
        sys.modules["zerotrie._fast"] = None
    return importlib.import_module("zerotrie")


@pytest.fixture
def modules_as_they_were():
    """Afterwards the package is the one that it was."""
    before = dict(sys.modules)
    yield
    sys.modules.clear()
    sys.modules.update(before)


@pytest.mark.skipif(not zerotrie.accelerated, reason="there is no extension")
def test_alike(modules_as_they_were):
    """They return the same, down to the words of exceptions, and tell a reader the same of themselves."""
    packages = imported("made"), imported(None)
    readers = [(package.ZeroTrie, package.Cursor) for package in packages]
    assert [isinstance(one.get, types.MethodDescriptorType) for one, _ in readers] == [True, False]
    for which, name in (
        (0, "get"), (0, "longest_prefix"), (0, "prefixes"), (1, "step"), (1, "probe"), (1, "take_value")
    ):
        told = []
        for types_of in readers:
            call = getattr(types_of[which], name)
            taken = list(inspect.signature(call).parameters.values())[1:]
            told.append((" ".join(call.__doc__.split()), [(each.name, each.kind, each.default) for each in taken]))
        assert told[0] == told[1], told
    assert len({" ".join(one.run.__doc__.split()) for _, one in readers}) == 1
    pairs = {"": 0, "a": 1, "foo": 1 << 64 - 1, "food": 7, "fö": 3}
    released = memoryview(b"foo")
    released.release()
    strange = [released, *pairs, "fo", "foods", b"", b"foo", b"f\xc3\xb6", b"\xff", "\ud800", "\ud800\udfff", "\0",
               Text("foo"), Long(b"foo"), bytearray(b"foo"), memoryview(b"foo"), memoryview(b"f?o?o?")[::2],
               array.array("H", [0x6F66]), 5, None, 1.5, [], (), ("foo",), {}, object, "x" * 100000]
    for letters in ({"a": 1, "foo": 1 << 63, "food": 7}, pairs, {}):
        tries = [package.ZeroTrie.build(letters) for package in packages]
        for key in strange:
            for ask in (
                lambda one: one.get(key), lambda one: one.get(key, 5), lambda one: one[key], lambda one: key in one,
                lambda one: one.longest_prefix(key), lambda one: one.longest_prefix("food", at=key),
                lambda one: one.longest_prefix(key, "f"), lambda one: one.prefixes(key),
                lambda one: list(one.get_many(["foo", key], 9)), lambda one: list(one.get_many(["foo"], key)),
                lambda one: list(one.items(key)), lambda one: list(one.values(key)), lambda one: len(one.keys(key)),
                lambda one: bool(one.with_prefix(key)), lambda one: one.cursor().step(key),
                lambda one: one.cursor().probe(key)
            ):
                assert outcome(ask, tries[0]) == outcome(ask, tries[1]), key
        for _ in range(300):
            steps = [(random.choice(("step", "probe", "take_value", "run", "bool", "copy")),
                      random.choice((*b"afod", 0, 1, 2, 300, -1))) for _ in range(8)]

            def walk(one):
                cursor, told = one.cursor(), []
                for step, number in steps:
                    if step == "copy":
                        cursor = cursor.copy()
                    elif step in ("step", "probe"):
                        told.append(outcome(getattr(cursor, step), number))
                    else:
                        told.append({"take_value": cursor.take_value, "run": lambda: cursor.run,
                                     "bool": lambda: bool(cursor)}[step]())
                return told
            assert walk(tries[0]) == walk(tries[1]), steps
