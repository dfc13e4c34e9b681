#!/usr/bin/env python3
"""Holds the documents against the sources: quoted contracts, links, words and lengths.

A block of README.md or docs/CALLING.md that is marked ```text and begins with `// FILE` must be in that file. So must each clause of
a block that begins with `fn`, which is shortened as docs/CALLING.md says: `kind` is the kind of the trie's type, `bytes` are its bytes,
and `..` is anything. A line `FILE:NUMBER: OLD  ->  NEW` must be a planted mistake of zerotrie_base. Each link of a page must lead to a
file that is there, and to a heading of it. The pages, the doc comments of the library's public items and the comments of definitions must be free of
RETIRED, words for which every Rust programmer has another one. A name in code marks must be one of the sources, of the page's examples,
or of ELSEWHERE. The words of docs/MODEL.md's tables must be in the files that their rows name. No page may have more words than LIMITS say, and all of these no more than TOGETHER: when a page gets shorter,
so does its limit. Those of UNLIMITED have none. docs/SIGNATURES.md, which docs/make writes, does not count. The figures of README.md on planted mistakes and on the definitions to judge
must be those of the sources; `python3 .ci/documents.py --figures` prints them.
"""
import pathlib
import re
import subprocess
import sys

ROOT = pathlib.Path(__file__).resolve().parent.parent
sys.dont_write_bytecode = True
sys.path.insert(0, str(ROOT / "docs" / "maker"))

import sources

QUOTING = ["README.md", "docs/CALLING.md"]
SIGNATURES = "docs/SIGNATURES.md"
TOGETHER = 24124  # words of all pages that have a limit
# How many words a page may have: words have a letter or a digit, so the bars of a table are none. CHANGELOG.md grows.
LIMITS = {
    "README.md": 845,
    "CONTRIBUTING.md": 1780,
    "bindings/README.md": 330,
    "bindings/python/README.md": 120,
    "crates/zerotrie_cli/README.md": 1228,
    "crates/zerotrie_index/README.md": 510,
    "crates/zerotrie_reverse/README.md": 320,
    "crates/zerotrie_search/README.md": 465,
    "crates/zerotrie_sets/README.md": 260,
    "crates/zerotrie_tool/README.md": 390,
    "docs/ARCHITECTURE.md": 1290,
    "docs/CALLING.md": 2205,
    "docs/DECISIONS.md": 1965,
    "docs/DIFFERENCES.md": 1315,
    "docs/FORMAT.md": 4290,
    "docs/MODEL.md": 1970,
    "docs/README.md": 190,
    "docs/SPEED.md": 1680,
    "docs/speed/fast.md": 510,
    "docs/speed/tables.md": 1400,
    "examples/README.md": 250,
    "release/README.md": 290,
    "rust/README.md": 401,
    "rust/zerotrie/README.md": 180,
}
# Pages for users of a language are as long as they have to be.
UNLIMITED = {"CHANGELOG.md", "docs/C.md", "docs/CPP.md", "docs/JAVASCRIPT.md", "docs/PYTHON.md", "docs/RUST.md"}
# Words that are gone, each with what to write.
RETIRED = {
    r"takes? (no|the|up|all|more) memory": "allocates, does not allocate",
    r"memory (was|is) refused|refused memory": "an allocation failed",
    r"(is|are|was|were) refused": "returns an error, is an error",
    r"tests? (of )?bytes|bytes are tested|untested": "validates, validation",
    r"means? no map": "malformed bytes",
    r"some answer": "the result is unspecified",
    r"answers? (the|a|an|what|no|nothing|as|its|all|by|it)": "returns",
    r"lends?|lent": "borrows",
    r"routes?": "way to build, constructor",
    r"lists its pairs": "iterates over",
    r"stands?": "is",
    r"(goes|go) on": "continues",
    r"tells?|told": "returns, says",
    r"goes along": "follows",
    r"lays out|puts aside": "arranges, saves",
    r"so many|those of these": "name the thing",
    r"which it may outlive": "it may outlive",
}
# Those that definitions give a meaning of their own, such as `Refused`, `Told` and `Route`.
DEFINED = ["routes?", "means? no map", "tells?|told", "(is|are|was|were) refused", "answers? (the|a|an|what|no|nothing|as|its|all|by|it)"]
# What comes before the number of lines of the definitions that a reader has to judge.
JUDGING = {"README.md": "[twelve files]", "docs/MODEL.md": "To judge the definitions"}
# Names of others that pages speak of.
ELSEWHERE = {"BinaryHeap", "O_TMPFILE", "ZeroFrom", "atbs_swap_ranges", "get_or_panic", "heapq", "nlargest", "partial_sort_copy"}


def prose(text):
    """Returns a text without its code."""
    return re.sub(r"`[^`]*`", "``", re.sub(r"^```.*?^```", "", text, flags=re.M | re.S))


def plain(clause):
    """Returns a clause in the short form in which pages quote it."""
    text = " ".join(clause.split())
    bytes_of, kind_of = r"(S\.stored self\.now\.store|bytes self\.now)", r"(K\.kind|kind self\.now)"
    for long, short in {rf"\({bytes_of}\)|{bytes_of}": "bytes", rf"\({kind_of}\)|{kind_of}": "kind"}.items():
        text = re.sub(long, short, text)
    return text


def clauses_of(path):
    """Returns the clauses of a function by its path in a page, each as its name and its short form. `None` if there is no such function."""
    owner, _, name = path.rpartition("::")
    if owner:
        found = [it for block in sources.all_impls() if block.type == owner for it in block.methods if it.name == name]
        found += [it for _, shown, item in sources.public() if shown == owner and item.kind == "trait" for it in item.parts if it.name == name]
    else:
        found = [item for _, shown, item in sources.public() if shown == name and item.kind == "fn"]
    return [(label, plain(text)) for item in found for _, label, text in item.clauses] if found else None


def misquoted():
    """Yields what a page quotes and the sources do not have."""
    for page in QUOTING:
        for block in re.findall(r"^```text\n(.*?)^```$", (ROOT / page).read_text(), re.M | re.S):
            first, _, rest = block.partition("\n")
            if first.startswith("// "):
                source = (ROOT / first[3:]).read_text()
                indents = {re.match(" *", line)[0] for line in source.splitlines()}
                if not any("".join(f"{indent}{line}\n" if line else "\n" for line in rest.splitlines()) in source for indent in indents):
                    yield f"{page}: {first[3:]} has no such lines"
            elif first.startswith("fn "):
                for path, said in re.findall(r"^fn ([\w:]+).*\n((?:  .*\n)*)", block, re.M):
                    clauses = clauses_of(path)
                    for label, text in re.findall(r"^  ensures ?(\w*): (.*\n(?:    .*\n)*)", said, re.M):
                        quoted = re.escape(" ".join(text.split())).replace(r"\.\.", ".*")
                        if not any(label == name and re.fullmatch(quoted, clause) for name, clause in clauses or []):
                            yield f"{page}: {path} has no such clause: {label} {' '.join(text.split())}"


def not_planted():
    """Yields the mistakes that a page shows and no list of planted ones has."""
    crate = ROOT / "crates" / "zerotrie_base"
    edits = [{"file": it[1], "old": it[2], "new": it[3]} for it in re.finditer(r"^\w+: (.*)\n- (.*)\n\+ (.*)", (crate / "wrong.txt").read_text(), re.M)]
    for page in QUOTING:
        for file, number, old, new in re.findall(r"^(src/\S+):(\d+): (.*)  ->  (.*)$", (ROOT / page).read_text(), re.M):
            line = (crate / file).read_text().splitlines()[int(number) - 1]
            made = [line.replace(it["old"], it["new"]).strip() for it in edits if it["file"] == file and it["old"] in line]
            if line.strip() != old or new not in made:
                yield f"{page}: no planted mistake makes {old} in {file}:{number} to {new}"


def headings(text):
    """Returns the anchors of a page's headings."""
    found = []
    for title in re.findall(r"^#+ (.*)", re.sub(r"^```.*?^```", "", text, flags=re.M | re.S), re.M):
        anchor = re.sub(r"[^\w\- ]", "", re.sub(r"\[([^]]*)\]\([^)]*\)", r"\1", title).lower()).replace(" ", "-")
        count = sum(it == anchor or re.fullmatch(rf"{re.escape(anchor)}-\d+", it) is not None for it in found)
        found.append(f"{anchor}-{count}" if count else anchor)
    return found


def dead_links(pages):
    """Yields the links that lead nowhere."""
    for page in pages:
        for link in re.findall(r"\]\(([^)\s]+)\)", prose((ROOT / page).read_text())):
            file, _, anchor = link.partition("#")
            target = (ROOT / page).parent / file if file else ROOT / page
            if link.startswith(("http:", "https:")):
                continue
            if not target.exists():
                yield f"{page}: {link} leads nowhere"
            elif anchor and anchor not in headings(target.read_text()):
                yield f"{page}: {link} names no heading"


def comments():
    """Yields the doc comments of the library's public items and of their parts and methods: where each is, and its text."""
    items = [item for _, _, item in sources.public()]
    names = {item.name for item in items}
    methods = [it for block in sources.all_impls() if block.type in names for it in block.methods if it.is_public]
    for item in [*items, *methods, *(part for item in items for part in item.parts)]:
        place = f"{item.file.relative_to(ROOT)}:{item.line}" if item.file else item.name
        yield place, "\n".join(item.doc)


def spec_comments():
    """Yields the comments of definitions: where each is, and its text."""
    for file in sorted(ROOT.glob("crates/*/specs/**/*.antt")):
        for number, line in enumerate(file.read_text().splitlines(), 1):
            if line.lstrip().startswith("--"):
                yield f"{file.relative_to(ROOT)}:{number}", line


def retired(pages):
    """Yields the retired words that are there."""
    texts = [(page, (ROOT / page).read_text(), RETIRED) for page in pages if page != SIGNATURES]
    texts += [(place, text, RETIRED) for place, text in comments()]
    texts += [(place, text, {word: RETIRED[word] for word in RETIRED if word not in DEFINED}) for place, text in spec_comments()]
    for place, text, words in texts:
        for word, other in words.items():
            if found := re.search(rf"\b({word})\b", prose(text), re.I):
                yield f"{place}: “{found[0]}”: write: {other}"


def words_of(paths):
    """Returns the words of these files, and of their paths."""
    return {word for it in paths for word in re.findall(r"\w+", f"{it} {(ROOT / it).read_text(errors='replace')}")}


def unknown_names(pages):
    """Yields the names in code marks that the sources do not have: those with capitals or a low line inside."""
    listed = subprocess.run(["git", "ls-files"], cwd=ROOT, capture_output=True, text=True, check=True).stdout.split()
    known = ELSEWHERE | words_of(it for it in listed if not it.endswith(".md") and (ROOT / it).is_file())
    for page in pages:
        text = (ROOT / page).read_text()
        shown = set(re.findall(r"\w+", "".join(re.findall(r"^```.*?^```", text, re.M | re.S))))
        for code in re.findall(r"`([\w:.]+)(?:\(\))?`", re.sub(r"^```.*?^```", "", text, flags=re.M | re.S)):
            for name in re.findall(r"\b[A-Za-z]+(?:_\w+|[a-z][A-Z]\w+)", code):
                if not {name, f"zerotrie_{name}"} & (known | shown):
                    yield f"{page}: the sources have no {name}"


def files_named(cell, folder, ending):
    """Returns the text of the files that the last cell of a row of docs/MODEL.md names, such as `CRATE`: `FILE`, or all of a crate."""
    found = []
    for part in cell.split(";"):
        crate, *names = re.findall(r"`([\w/]+)`", part)
        place = ROOT / "crates" / crate / folder
        files = [it for name in names for it in (*place.glob(f"{name.removeprefix('src/')}{ending}"), *place.glob(f"{name}/**/*{ending}"))]
        found += files if names else place.rglob(f"*{ending}")
    return "\n".join(it.read_text() for it in found)


def misplaced():
    """Yields the words of the tables of docs/MODEL.md that are not in the files of their rows: definitions in specs/, clauses in src/."""
    tables = (ROOT / "docs" / "MODEL.md").read_text().split("\n## ")
    for title, cell, folder, ending in [("The words", 0, "specs", ".antt"), ("The headline", 1, "src", ".rt")]:
        rows = next(it for it in tables if it.startswith(title)).split("|---|---|---|\n")[1].split("\n\n")[0].splitlines()
        for row in rows:
            cells = row.strip("| ").split(" | ")
            is_code = "`src/" in cells[2]
            text = files_named(cells[2], "src" if is_code else folder, ".rt" if is_code else ending)
            for name in re.findall(r"\b[A-Za-z]\w{2,}", " ".join(re.findall(r"`([^`]*)`", cells[cell]))):
                if not re.search(rf"\b{name}\b", text):
                    yield f"docs/MODEL.md: {cells[2]} has no {name}"


def planted():
    """Returns how many mistakes are planted in the sources."""
    lists = [len(it.read_text().strip().split("\n\n")) for it in ROOT.glob("crates/*/wrong.txt")]
    return sum(lists) + len([*ROOT.glob("crates/*/must-fail/*.edit")])


def judged():
    """Returns the definitions that a reader has to judge, which are what a build's promise cites, each with its number of lines, without comments, imports
    and empty lines."""
    found, left = {}, ["Routes"]
    while left:
        name = left.pop()
        text = (ROOT / f"crates/zerotrie_base/specs/{name}.antt").read_text()
        lines = [line.strip() for line in text.splitlines()]
        found[name] = sum(bool(it) and not it.startswith(("--", "use ", "pub use ")) for it in lines)
        left += set(re.findall(r"^use Rattle\.zerotrie_base\.specs\.([A-Z]\w*)\.", text, re.M)) - {*found, *left}
    return found


def wrong_figures():
    """Yields the figures of README.md that the sources do not have: a count of mistakes may be up to 150 too low, and lines are rounded."""
    text = (ROOT / "README.md").read_text()
    said = re.search(r"over (\d+) are planted", text)
    if not said or not 0 < planted() - int(said[1]) <= 150:
        yield f"README.md: {planted()} mistakes are planted"
    lines = sum(judged().values())
    said = {page: (ROOT / page).read_text().partition(before)[2].partition(" lines")[0] for page, before in JUDGING.items()}
    for page, text in said.items():
        if not re.search(rf"\b{round(lines, -1)}$", text):
            yield f"{page}: the {len(judged())} definitions to judge have {lines} lines"
    yield from (f"docs/MODEL.md: {name} is to be judged, too" for name in judged() if f"`{name}`" not in said["docs/MODEL.md"])


def words_in(page):
    """Returns how many words a page has. The table of errors, which is a test, does not count."""
    text = re.sub(r"^\| `\w+Error::.*", "", (ROOT / page).read_text(), flags=re.M)
    return sum(re.search(r"\w", it) is not None for it in text.split())


def too_long(pages):
    """Yields the pages that have too many words, and those that have no limit."""
    pages = [it for it in pages if it != SIGNATURES and it not in UNLIMITED]
    together = sum(map(words_in, pages))
    if together > TOGETHER:
        yield f"all pages with a limit have {together} words, and theirs together is {TOGETHER}"
    for page in pages:
        words = words_in(page)
        if page not in LIMITS:
            yield f"{page} has no limit of words in .ci/documents.py"
        elif words > LIMITS.get(page, words):
            yield f"{page} has {words} words, and its limit is {LIMITS[page]}"


def main():
    listed = subprocess.run(["git", "ls-files", "*.md"], cwd=ROOT, capture_output=True, text=True, check=True).stdout.split()
    pages = [it for it in listed if (ROOT / it).exists()]
    if sys.argv[1:] == ["--figures"]:
        sys.exit(print(f"{planted()} planted mistakes, {sum(judged().values())} lines in {len(judged())} files of definitions to judge"))
    wrong = [*misquoted(), *not_planted(), *wrong_figures(), *dead_links(pages), *misplaced(), *retired(pages), *unknown_names(it for it in pages if it != "CHANGELOG.md"), *too_long(pages)]
    print("\n".join([*wrong, f"{len(pages)} pages: {len(wrong)} faults in quotes, links, words and lengths"]))
    sys.exit(1 if wrong else 0)


main()
