"""Makes what is declared for C and Python of the functions that the library exports: their prototypes in
zerotrie.h, and the table of _library.py. With --write in front it writes them, and without it, or with --check,
it compares.
It also compares the numbers and texts of the languages. Arguments: the folder bindings, and if there is
one the shared library, whose exports are compared too.

The comment before a prototype is written by hand, but for that of a new export, which is the one of
its source and gets its place there: after the export before it.
"""

import pathlib
import re
import subprocess
import sys

sys.dont_write_bytecode = True
import pages  # noqa: E402

WRITES = "--write" in sys.argv
arguments = [it for it in sys.argv[1:] if it not in ("--write", "--check")]
here, library = pathlib.Path(arguments[0]), (arguments[1:] or [None])[0]
HEADER, TABLE = here / "c/zerotrie.h", here / "python/zerotrie/_library.py"
#: Types of the sources, with those of C and of ctypes.
TYPES = {
    "u8": ("uint8_t", "c_uint8"),
    "u16": ("uint16_t", "c_uint16"),
    "u32": ("uint32_t", "c_uint32"),
    "u64": ("uint64_t", "c_uint64"),
    "usize": ("size_t", "c_size_t"),
    "bool": ("bool", "c_bool"),
    "CursorPlace": ("zerotrie_cursor", "CursorPlace"),
    "Pair": ("zerotrie_pair", "Pair"),
    "Search": ("zerotrie_search", "RawSearch"),
    "Source": ("zerotrie_trie", "RawTrie"),
    "Changed": ("zerotrie_change", "RawChange"),
}
#: What C calls the u32 of a parameter of this name.
NUMBERS = {
    "kind": "zerotrie_kind_number",
    "selection": "zerotrie_selection",
    "rule": "zerotrie_rule",
    "by": "zerotrie_search_by",
    "from_bound": "zerotrie_bound",
    "to_bound": "zerotrie_bound",
}
#: What C calls the u32 that these return. The others return a status.
ANSWERS = {
    "zerotrie_version": "uint32_t",
    "zerotrie_first_fault": "zerotrie_fault",
    "zerotrie_auto_kind": "zerotrie_kind",
}
#: The lengths of these slices have names of their own.
WHOLE = {"bytes": "len", "tagged": "len", "file": "len", "index": "len", "pairs": "count", "tries": "count"}
#: The types that the table of Python has a name for.
SHORT = {
    "c_char_p, c_size_t": "*TEXT",
    "c_void_p, c_size_t": "*BYTES",
    "POINTER(c_size_t), c_size_t": "*SIZES",
    "POINTER(c_size_t)": "SIZE",
    "POINTER(Pair), c_size_t": "*RAW_PAIRS",
}
#: the statuses whose texts are those of the library's errors, in the order of docs/CALLING.md
OF_ERRORS = {
    "ZeroTrieBuildError": range(1, 12),
    "TagError": [13],
    "RecordError": [16, 17],
}


class Export:
    """An export as it is written in Rattle: an allocator is nothing, and a slice is a pointer and a
    length.
    """

    def __init__(self, comment, name, taken, answer):
        plain = re.sub(r"<[^>]*>|'\w+ ", "", " ".join(taken.split()))
        self.comment, self.name, self.answer = comment, name, answer
        #: The parameters, each with its name, its type, and whether it is mutable, a slice, a reference.
        self.parameters = []
        for part in filter(None, re.split(r", ?", plain)):
            word, kind = part.split(": ")
            if kind != "Global":
                lent, mutable, bracket, of = re.fullmatch(r"(&?)(mut )?(\[?)(\w+)\]?", kind).groups()
                self.parameters.append((word, of, bool(mutable), bool(bracket), bool(lent)))

    def takes_slice(self):
        return any(is_slice for _, _, _, is_slice, _ in self.parameters)

    def in_c(self):
        """The prototype, in lines of at most 100 columns."""
        words = {word for word, *_ in self.parameters}
        taken = []
        for word, of, mutable, is_slice, lent in self.parameters:
            kind = TYPES[of][0] if lent or of != "u32" else NUMBERS.get(word, "uint32_t")
            if not lent:
                taken.append(f"{kind} {word}")
                continue
            taken.append(f"{'' if mutable else 'const '}{kind} *{word}")
            if is_slice:
                length = WHOLE.get(word, f"{word}_len")
                taken.append(f"size_t {f'{word}_len' if length in words else length}")
        answer = TYPES[self.answer][0] if self.answer else "void"
        if self.answer == "u32":
            answer = ANSWERS.get(self.name, "zerotrie_status")
        front = f"{answer} {self.name}("
        lines = [front]
        for place, part in enumerate(taken or ["void"]):
            part += ");" if place >= len(taken) - 1 else ","
            if len(lines[-1]) + len(part) + (place > 0) > 100:
                lines.append(" " * len(front) + part)
            else:
                lines[-1] += f" {part}" if place else part
        return "\n".join(lines)

    def in_python(self):
        """The row of the table."""
        taken = []
        for word, of, mutable, is_slice, lent in self.parameters:
            kind = TYPES[of][1]
            if of == "u8" and is_slice:
                # what is written, and tries, may be a buffer of any type
                kind = "c_void_p" if mutable or WHOLE.get(word) == "len" else "c_char_p"
            elif lent:
                kind = f"POINTER({kind})"
            kind = f"{kind}, c_size_t" if is_slice else kind
            taken.append(SHORT.get(kind, kind))
        answer = TYPES[self.answer][1] if self.answer else "None"
        row = f'    "{self.name}": ({answer}, [{", ".join(taken)}]),'
        if len(row) <= 100:
            return row
        lines = [f'    "{self.name}": (', f"        {answer},", "        ["]
        for place, part in enumerate(taken):
            part += "]" if place == len(taken) - 1 else ","
            if len(lines[-1]) + len(part) + 1 > 99:
                lines.append(f"         {part}")
            else:
                lines[-1] += part if lines[-1].endswith("[") else f" {part}"
        return "\n".join([*lines[:-1], f"{lines[-1]}),"])


def exported():
    """The exports in the order of the sources, each after the one that is before it in its file."""
    found = {}
    for file in sorted((here / "../crates/zerotrie_c/src").glob("*.rt")):
        before = None
        for comment, name, taken, answer in re.findall(
            r"((?:^///[^\n]*\n)*)"
            r'#\[unsafe\(no_mangle\)\]\npub extern "C" fn (\w+)'
            r"(?:<[^>]*>)?\((.*?)\)(?: -> (\w+))?\n",
            file.read_text(),
            re.S | re.M,
        ):
            found[name] = (Export(comment, name, taken, answer), before)
            before = name
    return found


def declared_in_c(text):
    """The names that the header declares, in its order, and where."""
    return {it[1]: it for it in re.finditer(r"^\w+ (zerotrie_\w+)\([^){]*\);", text, re.M)}


def header_made(text):
    """The header with the prototypes of the exports."""
    for name in declared_in_c(text).keys() - want.keys():
        raise SystemExit(f"zerotrie.h: {name} is no export")
    for name, (one, before) in want.items():
        found = declared_in_c(text).get(name)
        if found:
            text = text[: found.start()] + one.in_c() + text[found.end() :]
        else:
            at = declared_in_c(text)[before].end() if before else text.index("\n#ifdef __cplusplus\n}")
            lines = "".join(f" *{line[3:]}\n" for line in one.comment.splitlines())
            text = f"{text[:at]}\n\n/**\n{lines} */\nZEROTRIE_ANSWERS\n{one.in_c()}{text[at:]}"
    return text


def table_made(text, names):
    """The module with the table of the exports."""
    front, rest = text.split("_DECLARED: dict[str, tuple[Any, list[Any]]] = {\n")
    rows = "\n".join(want[name][0].in_python() for name in names)
    return f"{front}_DECLARED: dict[str, tuple[Any, list[Any]]] = {{\n{rows}\n}}\n" + rest.split("\n}\n", 1)[1]


def numbers_of(header, enum):
    """The constants of an enum of the header."""
    body = re.search(rf"typedef enum zerotrie_{enum} .*?\n\}}", header, re.S)[0]
    return {name: int(number) for name, number in re.findall(r"(ZEROTRIE_\w+) = (\d+)", body)}


def texts_of(header, enum):
    """The texts of its constants."""
    body = re.search(rf"zerotrie_{enum}_text\(uint32_t \w+\) \{{.*?\n\}}", header, re.S)[0]
    return {
        name: "".join(re.findall(r'"(.*?)"', text))
        for name, text in re.findall(r'case (ZEROTRIE_\w+):\s+return ((?:\s*"[^"]*")+);', body)
    }


def faults():
    """The texts of the rules of the format are those of the library, in the order of their numbers,
    which those of statuses continue.
    """
    header = (here / "c/zerotrie.h").read_text()
    rules = (here / "../crates/zerotrie_core/src/faults.rt").read_text()
    numbers, texts = numbers_of(header, "fault"), texts_of(header, "fault")
    want = re.findall(r'FaultCause::(\w+) => \{?\s*"(.*?)"', rules)
    assert len(want) == 10 and [*numbers.values()] == [*range(11)], numbers
    broken = [name for name in numbers if numbers[name]]
    assert [texts[name] for name in broken] == [text for _, text in want], (texts, want)
    names = [name.removeprefix("ZEROTRIE_FAULT_").replace("_", "").lower() for name in broken]
    assert names == [name.lower() for name, _ in want], (names, want)


def versions():
    """The header, and the numbers in the sources of the library, are of one version."""
    header = (here / "c/zerotrie.h").read_text()
    crate = (here / "../crates/zerotrie_c/src/version.rt").read_text()
    for part in ("MAJOR", "MINOR", "PATCH"):
        want = re.search(rf"const {part}: u32 = (\d+);", crate)[1]
        assert re.search(rf"#define ZEROTRIE_VERSION_{part} (\d+)", header)[1] == want, (part, want)


def texts_of_errors():
    """The number of each status that is an error of the library, and its text: that of the table in
    docs/CALLING.md with the advice after it, or the advice alone where the text is a mere name.
    """
    page = (here / "../docs/CALLING.md").read_text()
    rows = re.findall(r"^\| `(\w+Error)::(\w+).*?` \| (.*?) \| (.*?) \|$", page, re.M)
    for error, numbers in OF_ERRORS.items():
        for number, (_, name, text, advice) in zip(numbers, [it for it in rows if it[0] == error]):
            text = text.partition(". Size needed")[0]
            if text == name:
                yield number, advice
            elif text.endswith("."):
                yield number, f"{text} {advice[0].upper()}{advice[1:]}"
            else:
                yield number, f"{text}: {advice}"


def statuses():
    """The text of each status is that of the library's error, in each language."""
    header = (here / "c/zerotrie.h").read_text()
    numbers = numbers_of(header, "status")
    by_name = texts_of(header, "status")
    cases = [name for name in by_name if name in numbers]
    texts = [by_name[name] for name in sorted(cases, key=numbers.get)]
    assert len(texts) == len(by_name), by_name
    assert [numbers[name] for name in cases] == [*range(len(cases))], by_name
    for number, text in texts_of_errors():
        assert texts[number] == text, (number, text, texts[number])
    in_python = (here / "python/zerotrie/_errors.py").read_text()
    rules = [
        text
        for name, text in texts_of(header, "fault").items()
        if numbers_of(header, "fault").get(name)
    ]
    for name, wanted in [("TEXTS", texts), ("RULES", rules)]:
        table = re.search(rf"{name}\b.*?[\[(]\n(.*?)\n[\])]", in_python, re.S)[1]
        assert re.findall(r'^    "(.*)",$', table, re.M) == wanted, name


want = exported()
if library:
    symbols = subprocess.run(
        ["nm", "-D", "--defined-only", "--without-symbol-versions", library],
        capture_output=True,
        text=True,
        check=True,
    ).stdout
    assert sorted(line.split()[2] for line in symbols.splitlines() if " T " in line) == sorted(
        want
    ), symbols
header = header_made(HEADER.read_text())
for file, made in [(HEADER, header), (TABLE, table_made(TABLE.read_text(), declared_in_c(header)))]:
    if WRITES:
        file.write_text(made)
    elif file.read_text() != made:
        sys.exit(f"{file} is not made of the exports: run bindings/tests/declared.py --write bindings")


def each_takes_null():
    """null.c calls each export that takes a pointer and a length."""
    called = re.findall(r"(?:CALL|MAKE)\((\w+),", (here / "c/tests/null.c").read_text())
    wanted = [name for name, (one, _) in want.items() if one.takes_slice()]
    assert wanted and not set(wanted) - set(called), set(wanted) - set(called)


statuses()
faults()
versions()
each_takes_null()
pages.compare(here)
print(f"declared: {len(want)} functions, in C and Python as they are exported")
