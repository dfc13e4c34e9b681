"""Opens examples/js/lookup.html in a headless Chromium and compares what it shows, also of a damaged
file, and its trie with what the library builds if there is one. A picture of it has the size that was
asked for, and more than one colour. Arguments: the folder bindings, a
folder to work in, and the command of the browser. A browser that takes minutes, as on a machine with
too much to do, is no fault of the page: the rest is skipped then.
"""

import contextlib
import functools
import html
import html.entities
import http.server
import os
import pathlib
import re
import shutil
import struct
import subprocess
import sys
import threading
import zlib

here, room, browser = pathlib.Path(sys.argv[1]), pathlib.Path(sys.argv[2]), sys.argv[3]
NAMES = html.entities.name2codepoint


class Quiet(http.server.SimpleHTTPRequestHandler):
    def log_message(self, *_):
        """Says nothing of requests."""


@contextlib.contextmanager
def served(folder):
    """Serves a folder that has js and examples; the value is the address of the page."""
    handler = functools.partial(Quiet, directory=folder)
    with http.server.ThreadingHTTPServer(("127.0.0.1", 0), handler) as server:
        threading.Thread(target=server.serve_forever, daemon=True).start()
        yield f"http://127.0.0.1:{server.server_port}/examples/js/lookup.html"
        server.shutdown()


def opened(*words):
    """What the browser does of a page, once its script has run."""
    flags = ["--headless", "--no-sandbox", "--disable-gpu", f"--user-data-dir={room / 'profile'}"]
    command = [browser, *flags, "--virtual-time-budget=10000", *words]
    try:
        return subprocess.run(command, capture_output=True, text=True, timeout=120)
    except subprocess.TimeoutExpired:
        print("skipped: the page, as the browser did not end in two minutes")
        sys.exit()


def shown(address):
    """The text of the page at an address."""
    done = opened("--dump-dom", address)
    body = done.stdout[done.stdout.index("<body") : done.stdout.index("<script")]
    return html.unescape(re.sub(r"\s+", " ", re.sub(r"<[^>]*>", " ", body).replace("> <", "")))


def holds(address, typed):
    """Compares what is shown of what is typed with the names."""
    text = shown(f"{address}#{typed}")
    found = sorted(it for it in NAMES if it.startswith(typed))
    for name in found[:12]:
        row = f"{typed} {name[len(typed):]}".strip() + f" {NAMES[name]} {chr(NAMES[name])}"
        assert re.sub(r"\s+", " ", row).strip() in text, (typed, row, text)
    if typed in NAMES:
        assert f"“{typed}” has the value {NAMES[typed]}." in text, text
    assert "bytes of the kind SIMPLE_ASCII" in text, text


def painted(address, width, height):
    """The size of a picture of the page at an address, of which this one is asked for, and its colours."""
    place = room / "picture.png"
    size = f"--window-size={width},{height}"
    done = opened("--force-device-scale-factor=1", size, f"--screenshot={place}", address)
    assert place.is_file(), done.stderr
    return of_png(place.read_bytes())


def of_png(png):
    """The size and the colours of a PNG that has 8 bits a channel, and its rows in their order."""
    assert png[:8] == b"\x89PNG\r\n\x1a\n" and png[-8:-4] == b"IEND"
    parts, at = {}, 8
    while at < len(png):
        (length,), name = struct.unpack_from(">I", png, at), png[at + 4 : at + 8]
        part, at = png[at + 8 : at + 8 + length], at + 12 + length
        assert zlib.crc32(name + part) == int.from_bytes(png[at - 4 : at], "big"), name
        parts[name] = parts.get(name, b"") + part
    width, height, depth, kind, *_, interlaced = struct.unpack(">IIBBBBB", parts[b"IHDR"])
    assert (depth, interlaced) == (8, 0) and kind in (2, 6)
    size = 3 if kind == 2 else 4
    data, row, colours = zlib.decompress(parts[b"IDAT"]), bytes(size * width), set()
    for at in range(0, len(data), size * width + 1):
        row = row_of(data[at], data[at + 1 : at + 1 + size * width], row, size)
        colours |= {row[pixel : pixel + size] for pixel in range(0, len(row), size)}
    return (width, height), colours


def row_of(how, coded, above, size):
    """A row of a PNG, of what its filter made of it and the row above."""
    front, above = bytearray(size), bytes(size) + above
    for at, byte in enumerate(coded, size):
        left, up, corner = front[at - size], above[at], above[at - size]
        if how == 4:
            near = left + up - corner
            add = min((left, up, corner), key=lambda one: abs(near - one))
        else:
            add = (0, left, up, (left + up) // 2)[how]
        front.append((byte + add) & 0xFF)
    return bytes(front[size:])


with served(here) as address:
    for typed in ("al", "beta", "zz"):
        holds(address, typed)
    size, colours = painted(f"{address}#al", 400, 300)
    assert size == (400, 300) and len(colours) > 1, (size, len(colours))
for folder in ("js", "examples/js"):
    shutil.copytree(here / folder, room / "site" / folder)
trie = room / "site/examples/js/characters.trie"
trie.write_bytes(trie.read_bytes()[:-1])
with served(room / "site") as address:
    assert "characters.trie: the file is damaged: 1830 of its 1831 bytes are there." in shown(address)
if pathlib.Path(os.environ.get("ZEROTRIE_SO", "")).is_file():
    sys.path.insert(0, str(here / "python"))
    import zerotrie

    built = zerotrie.ZeroTrie.build(NAMES, zerotrie.SIMPLE_ASCII).seal()
    assert built == (here / "examples/js/characters.trie").read_bytes()
print("js: the page shows what its trie has")
