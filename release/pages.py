"""Puts the pages and the programs of a release into a folder where bindings/install put the library: pages.py PREFIX. The pages are
release/README.md and those that it links. A link to what is in the folder leads there, and another one is its text alone. Ends with an
error if a page has a link that leads nowhere.
"""

import os
import pathlib
import re
import shutil
import sys

TOP = pathlib.Path(__file__).resolve().parent.parent
DOC = "share/doc/zerotrie"
FIRST = "release/README.md"
LINK = re.compile(r"\[((?:[^][]|\[[^]]*\])*)\]\(([^)\s]+)\)")


def source_of(target, page):
    """The file or folder of the sources that a link of a page leads to. None: it leads elsewhere."""
    if re.match(r"[a-z]+:|#", target):
        return None
    return os.path.normpath(os.path.join(os.path.dirname(page), target.partition("#")[0]))


def pages():
    """Each page that the first one links, with its place: a README is named as its folder."""
    linked = (source_of(target, FIRST) for _, target in LINK.findall((TOP / FIRST).read_text()))
    for page in map(pathlib.PurePath, sorted({source for source in linked if source and source.endswith(".md")})):
        name = page.parent.name if page.stem == "README" else page.stem
        yield str(page), f"{DOC}/{name}.md"


#: Where what the sources have is in a release. The programs in JavaScript lie beside what they import.
PLACES = {
    FIRST: f"{DOC}/README.md",
    **dict(pages()),
    **{f"bindings/examples/{folder.name}": f"{DOC}/examples/{folder.name}" for folder in (TOP / "bindings/examples").iterdir() if folder.is_dir()},
    "bindings/examples/js": "share/zerotrie/examples/js",
    "bindings/js": "share/zerotrie/js",
    "bindings/c": "include",
}


def place_of(source):
    """Where a file or folder of the sources is in a release. None: it is not there."""
    for name in (source, *map(str, pathlib.PurePath(source).parents)):
        if name in PLACES:
            return os.path.normpath(os.path.join(PLACES[name], os.path.relpath(source, name)))
    return None


def moved(text, source, to, prefix):
    """The text of a page with the links of its new place."""

    def link(found):
        words, target = found.groups()
        wanted = source_of(target, source)
        if wanted is None:
            return found[0]
        heading = target.partition("#")[2]
        place = place_of(wanted)
        if place is None or not (prefix / place).exists():
            return words
        return f"[{words}]({os.path.relpath(place, os.path.dirname(to))}{'#' if heading else ''}{heading})"

    return LINK.sub(link, text)


def put(prefix):
    for source, place in PLACES.items():
        if place.startswith(f"{DOC}/examples/"):
            shutil.copytree(TOP / source, prefix / place, dirs_exist_ok=True, ignore=shutil.ignore_patterns("__pycache__"))
    texts = {place: source for source, place in PLACES.items() if source.endswith(".md")}
    for place in texts:
        (prefix / place).touch()
    for place, source in [*texts.items(), ("README.md", FIRST)]:
        (prefix / place).write_text(moved((TOP / source).read_text(), source, place, prefix))


def headings(page):
    return {re.sub(r"[^\w\- ]", "", line).strip().lower().replace(" ", "-") for line in re.findall(r"^#+ (.*)$", page.read_text(), re.M)}


def dead_links(prefix):
    for page in sorted(prefix.rglob("*.md")):
        for _, target in LINK.findall(page.read_text()):
            path, _, heading = target.partition("#")
            to = page.parent / path if path else page
            if not re.match(r"[a-z]+:", target) and (not to.exists() or heading and heading not in headings(to)):
                yield f"{page.relative_to(prefix)}: {target} leads nowhere"


prefix = pathlib.Path(sys.argv[1])
put(prefix)
dead = list(dead_links(prefix))
print("\n".join([*dead, f"pages: {len(dead)} dead links in a release"]))
sys.exit(bool(dead))
