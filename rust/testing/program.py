#!/usr/bin/env python3
"""Compares two programs zerotrie, the proved one and that of plain Rust: both get the same generated commands, each over files of its own.
Arguments: the programs, how many commands (10000), and a seed (1). What they print, their status and their files must be the same.

`clap` chooses what is similar to a word that it does not know, and its versions differ in that: where a tip is, the usage is left out. Of a
key that comes three times a sort that is not stable chooses the two lines that are named.
"""
import collections
import pathlib
import random
import re
import subprocess
import sys
import tempfile

PROGRAMS = [pathlib.Path(it).resolve() for it in sys.argv[1:3]]
COUNT, SEED = [int(it) for it in [*sys.argv[3:], *["10000", "1"][len(sys.argv[3:]) :]]]
RNG = random.Random(SEED)
FORMS = ["tsv", "csv", "lines", "json", "jsonl"]
# what keys and patterns are made of, each with how often
LETTERS = {"a": 9, "b": 9, "ab": 6, "A": 3, "é": 3, "zz": 2, "0": 2, "\U0001f600": 1, "~": 1, " ": 1, "*": 1, '"': 1, ",": 1, "-": 1}
LETTERS |= {"\\t": 1, "\\x41": 1, "\\": 0.5}
NUMBERS = "0 1 7 38 127 128 1000000 18446744073709551615 18446744073709551616 -1 +1 0x1 1.5 1e3".split() + [""]
# what takes the place of some bytes of an input
PARTS = [b"", b"\xff", b"\\u00e9", b"\\ud83d\\ude00", b"\\udc00", b"\r\n", *(bytes([it]) for it in b'"[]{}:,\n1 ')]
# words that are wrong in most commands
WRONG = ["--prefx", "--lim", "-x", "--", "--raw=1", "extra", "\x1b[31m", "--sorte", "--glob", "--output=x", "--bare", "--summary", "-j"]
TIP = re.compile(rb"^(  tip: .*|Usage: .*)?\n", re.M)
CHOSEN = re.compile(rb"\d+ and \d+ (?=have the same key; )")


def some(*items):
    return RNG.choice(items)


def word():
    return "".join(RNG.choices([*LETTERS], LETTERS.values(), k=some(0, 1, 1, 2, 2, 3, 5)))


def value():
    return some(*NUMBERS) if RNG.random() < 0.03 else str(RNG.randrange(some(5, 300, 2**40)))


def mutated(text):
    """Returns a text with a few bytes that are others, more or fewer."""
    text = bytearray(text)
    for _ in range(some(0, 0, 0, 1, 1, 2, 4)):
        at = RNG.randrange(len(text) + 1)
        text[at : at + RNG.randrange(2)] = some(*PARTS)
    return bytes(text)


def json_value(depth=0):
    kind = some("word", "word", "list", "object") if depth < 4 else "word"
    if kind == "word":
        return some("null", "true", "-0", "1.50e+7", "12", "18446744073709551615", '"\\n\\u0041"', f'"{RNG.randrange(99)}"', '"\\"é"')
    items = [json_value(depth + 1) for _ in range(RNG.randrange(4))]
    return f"[{','.join(items)} ]" if kind == "list" else "{" + ", ".join(f'"k" :{it}' for it in items) + "}"


def quoted(key):
    return '"' + key.replace("\\", "\\\\").replace('"', '\\"') + '"'


def csv_field(key):
    return some(key, '"' + key.replace('"', '""') + '"')


def jsonl_row(key, number):
    usual = [f"[{quoted(key)}, {number}]", f'{{"value": {number}, "key": {quoted(key)}}}', "[[97, 98], 3]"]
    return some(*usual) if RNG.random() < 0.95 else json_value()


def json_text(items):
    members = ", ".join(f"{quoted(key)}: {number}" for key, number in items)
    rows = ",\n".join(f"[{quoted(key)}, {number}]" for key, number in items)
    deep = some(1, 127, 128, 129)
    return some("{" + members + "}", f"[{rows}]", json_value(), "[" * deep + "1" + "]" * deep)


def pairs_in(form):
    """Returns an input of a form, with a mistake now and then."""
    items = list({word(): value() for _ in range(some(0, 1, 2, 3, 5, 9, 40, 600))}.items())
    if RNG.random() < 0.3:
        items.sort(key=lambda pair: pair[0].encode())
    if RNG.random() < 0.1:
        items += items[:1]
    end = some("\n", "\n", "\n", "\r\n")
    line = {
        "tsv": lambda key, number: f"{key}\t{number}",
        "csv": lambda key, number: f"{csv_field(key)},{number}",
        "lines": lambda key, _: key,
        "jsonl": jsonl_row,
    }
    text = json_text(items) if form == "json" else "".join(line[form](*pair) + end for pair in items)
    return mutated((some("", "", "", "\ufeff") + text).encode())


def options_of(command):
    """Returns the options that the help of a command names: for each its letter, its name, what help calls its word, and the words that it
    may have. Then the places of the command, and whether each takes more words.
    """
    text = subprocess.run([PROGRAMS[0], command, "--help"], capture_output=True, text=True, check=True).stdout
    text = re.sub(r"\n {10,}(?! *-)", " ", text)
    found = re.findall(r"^  (?:-(\w), |    )--([\w-]+)(?: <(\w+)>)?  (.*)$", text, re.M)
    known = [re.findall(r"\[possible values: ([^]]*)\]", help) for *_, help in found]
    options = [(*names, words[0].split(", ") if words else []) for (*names, _), words in zip(found, known)]
    return options, re.findall(r"^  <(\w+)>(\.\.\.)?  ", text, re.M)


def for_word(name, known):
    """Returns a word behind an option, or at a place, which help calls so."""
    if known and RNG.random() < 0.95:
        return some(*known)
    words = {
        "OUT": ["out.trie", "out.trie", "out.idx", "-", "/dev/stdout", "old.trie", "folder", "none/x", "link", "readonly"],
        "FILE": [*TRIES[:5] * 6, *TRIES * 2, "none", "folder", "-", "/dev/stdin", "/dev/null", "readonly", "pairs.tsv"],
        "IN": [*(f"pairs.{it}" for it in FORMS), "-", "-", "/dev/stdin", "none", "folder", "a.trie"],
        "N": [*NUMBERS, str(RNG.randrange(9)), str(RNG.randrange(9))],
        "VALUE": ["-", some(*NUMBERS), value(), value()],
        "NAME": ["names", "a_b", "9", "fn", "", "É"],
        "SHELL": ["bash", "zsh", "fish", "tcsh"],
        "VIEW": ["dump", "dot", "dots"],
    }
    name = {"OLD": "FILE", "NEW": "FILE", "E": "N"}.get(name, name)
    return some(*words.get(name, [word(), word(), word(), "-", "--", word() + "*"]))


def words_of(command):
    """Returns the words of a command."""
    options, places = OPTIONS[command]
    words, often = [], some(0, 0.03, 0.1)
    for letter, name, called, known in options:
        if RNG.random() < {"output": 0.9, "lang": 0.9, "help": often / 3}.get(name, often):
            for _ in range(2 if RNG.random() < 0.02 else 1):
                named, joint = some((f"-{letter}", ""), (f"--{name}", "=")) if letter else (f"--{name}", "=")
                given = for_word(called, known)
                words += some([named, given], [named + joint + given]) if called else [named]
    for name, more in places:
        words += [for_word(name, []) for _ in range(some(1, 1, 2, 3) if more else 1)]
    if RNG.random() < 0.05:
        words.insert(RNG.randrange(len(words) + 1), some(*WRONG))
    if RNG.random() < 0.05 and words:
        words.pop(RNG.randrange(len(words)))
    if RNG.random() < 0.3:
        RNG.shuffle(words)
    name = some(command[:-1], command + "s", "help") if RNG.random() < 0.02 else command
    return ["help", name] if RNG.random() < 0.01 else [name, *words]


def files_of(folder):
    """Returns what is in a folder, below it too: the bytes of files, where links lead, and who may read and write."""
    files = [it for it in sorted(folder.rglob("*")) if it.is_symlink() or not it.is_dir()]
    return {str(it.relative_to(folder)): (it.lstat().st_mode, it.readlink() if it.is_symlink() else it.read_bytes()) for it in files}


def run(program, folder, words, text):
    """Returns the status of a run, what it printed, and the files after it. Its output goes to files, as a word may be `/dev/stdout`."""
    output, told = (folder.with_suffix(it) for it in (".output", ".told"))
    with open(output, "wb") as stdout, open(told, "wb") as stderr:
        ran = subprocess.run([program, *words], cwd=folder, input=text, stdout=stdout, stderr=stderr, timeout=60)
    return ran.returncode, output.read_bytes(), told.read_bytes(), files_of(folder)


def are_alike(one, two):
    """Returns whether two results are the same but for a tip, and the usage behind it, or the lines of one key."""
    told = [CHOSEN.sub(b"", TIP.sub(b"", it[2]) if b"  tip: " in one[2] + two[2] else it[2]) for it in (one, two)]
    return told[0] == told[1] and one[:2] + one[3:] == two[:2] + two[3:]


TRIES = ["a.trie", "b.trie", "c.trie", "d.trie", "tagged", "bare", "a.idx", "out.trie", "out.idx", "damaged"]
COMMANDS = re.findall(r"^  (\w+)  ", subprocess.run([PROGRAMS[0], "--help"], capture_output=True, text=True, check=True).stdout, re.M)
COMMANDS.remove("help")
OPTIONS = {command: options_of(command) for command in COMMANDS}
CLEAN = "".join(f"{key}{at}\t{at * 3}\n" for at, key in enumerate("ab B c a.b zz".split() * 3))
BUILDS = """-k simple -o a.trie
-k ignore -l -o b.trie
-k hash -o c.trie
-k ext -o d.trie
-t -o tagged
-b -k hash -o bare
-i -o a.idx"""


def fresh(folders):
    """Writes other inputs, and now and then all tries anew, and a damaged one."""
    texts = {f"pairs.{form}": pairs_in(form) for form in FORMS}
    if RNG.random() < 0.3:
        first = folders[0]
        for words in BUILDS.splitlines():
            subprocess.run([PROGRAMS[0], "build", "-", *words.split()], cwd=first, input=CLEAN.encode(), check=True)
        texts |= {name: (first / name).read_bytes() for name in TRIES[:7]}
        texts["damaged"] = mutated(texts[some(*TRIES[:7])])
    for folder in folders:
        for name, text in texts.items():
            (folder / name).write_bytes(text)


def made(folder):
    """Makes a folder with what commands find beside tries."""
    (folder / "folder").mkdir(parents=True)
    (folder / "link").symlink_to("linked")
    (folder / "readonly").write_bytes(b"")
    (folder / "readonly").chmod(0o444)
    (folder / "old.trie").write_bytes(b"old")
    return folder


def main():
    with tempfile.TemporaryDirectory() as room:
        folders = [made(pathlib.Path(room, name)) for name in ("proved", "plain")]
        statuses, tips, wrong = collections.Counter(), 0, 0
        for at in range(COUNT):
            if at % 40 == 0:
                fresh(folders)
            words = words_of(some(*COMMANDS, "build", "build", "search", "list", "get"))
            text = some(b"", pairs_in(some(*FORMS)), "\n".join(word() for _ in range(RNG.randrange(9))).encode())
            one, two = [run(program, folder, words, text) for program, folder in zip(PROGRAMS, folders)]
            statuses[one[0]] += 1
            tips += one != two and are_alike(one, two)
            if not are_alike(one, two):
                wrong += 1
                print(words, text[:200])
                for part, first, second in zip("status output told files".split(), one, two):
                    if first != second:
                        print(f"  {part}: {str(first)[:400]}\n  {part}: {str(second)[:400]}")
        ends = ", ".join(f"{count} with status {status}" for status, count in sorted(statuses.items()))
        print(f"{COUNT} commands of seed {SEED}, {ends}: {wrong} wrong, and {tips} differ as they may")
    return wrong > 0


sys.exit(main())
