"""What all tests share. `--way` says by which of the two ways single look-ups go: without it by the extension, if there is one."""

import random
import sys

import pytest


def pytest_addoption(parser):
    parser.addoption("--way", choices=("extension", "ctypes"), help="how single look-ups call the library")


def pytest_configure(config):
    config.addinivalue_line("markers", "timed: what a call costs beside others, for a process without sanitizers")
    if config.getoption("way") == "ctypes":
        sys.modules["zerotrie._fast"] = None


def pytest_sessionstart(session):
    import zerotrie

    way = "extension" if zerotrie.accelerated else "ctypes"
    if session.config.getoption("way") not in (None, way):
        pytest.exit("the extension was not made, or not found", 1)


def pytest_report_header(config):
    import zerotrie

    return f"zerotrie {zerotrie.__version__}, by {'the extension' if zerotrie.accelerated else 'ctypes'}"


@pytest.fixture(autouse=True)
def same_numbers():
    """Each test gets the same random numbers, whichever run before it."""
    random.seed(7)


@pytest.fixture
def trie():
    import zerotrie

    return zerotrie.ZeroTrie.build({"foo": 1, "bar": 2})
