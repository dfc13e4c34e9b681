"""Lists the lemmas and definitions of the crates that nothing cites, and the names that a file imports and does not use.

A word is cited by its own file, outside its own text, or by a file that imports and uses a word of its name. The public words of Answers.antt
and Invariants.antt answer goals, and the checker reads them. What a page or a test names, and what modules of vectors prove, is marked. With
--imports the imports are listed, too. Some of what is listed may be needed all the same: a tactic takes what is in scope.
"""
import collections
import functools
import pathlib
import re
import sys

ROOT = pathlib.Path(__file__).resolve().parent.parent
USE = re.compile(r"^[ \t]*(?:ghost )?(pub )?use (Rattle\.[^\s{;]+?)(?:\.\{([^}]*)\})?(?: as (\S+?))?;?$", re.M)
HEAD = re.compile(r"((?:(?:abbrev|unfoldable|opaque|pub|data|record|rec) )*)([^\s:({]+)(?: [({].*?)? :(?: |$)")
TAKEN = re.compile(r"\bproofs::(?:[^\s,()\]]+::)*([^\s,():\]]+)")  # by a tactic
WORD = re.compile(r"[^\s(){}\[\],;.`\"]+")


def text_of(file):
    """Returns a file without comments."""
    mark = "//" if file.suffix == ".rt" else "--"
    return re.sub(rf"(^|\s){mark}.*$", "", file.read_text(), flags=re.M)


@functools.cache
def words(text):
    return collections.Counter(WORD.findall(text))


def imports(text):
    """Yields each imported name: whether it is handed on, its module, its own name, and the one that it has here."""
    for handed, module, names, alias in USE.findall(text):
        listed = [it.split(" as ") for it in names.replace("\n", " ").split(",") if it.strip()]
        for name, *here in listed:
            yield bool(handed), module, name.strip(), (here[0] if here else name).strip()
        if not listed:
            yield bool(handed), module, "", (alias or module.split(".")[-1]).strip()


def has(body, name):
    """Returns whether a text has a name; an operator may have its operands between its parts."""
    if "◌" in name or name == "[]":
        return all(part in body for part in name.split("◌"))
    return words(body)[name] > 0


def blocks(text):
    """Yields each definition at the top of a file: whether it is public, its name, and its text."""
    lines = text.splitlines(True)
    for number, line in enumerate(lines):
        if line[0].isspace() or not (match := HEAD.match(line)):
            continue
        end = number + 1
        while end < len(lines) and (lines[end][0].isspace() or lines[end].split()[0] in (match[2], "unfolding")):
            end += 1
        yield "pub" in match[1], match[2], "".join(lines[number:end])


def module_of(file):
    return file.stem if file.stem != "Lib" else file.parent.name


def main():
    files = {file: text_of(file) for kind in ("specs", "proofs", "src") for file in (ROOT / "crates").glob(f"*/{kind}/**/*") if file.suffix in (".rt", ".antt")}
    bodies = {file: USE.sub("", text) for file, text in files.items()}
    pages = words("".join(file.read_text() for folder in ("docs", "tests", "examples") for file in (ROOT / folder).rglob("*") if file.suffix in (".md", ".in", ".antt")))
    used, whole, unused = set(), collections.defaultdict(set), []
    for file, text in files.items():
        used |= set(TAKEN.findall(text))
        for handed, module, name, here in imports(text):
            if has(bodies[file], here):
                used.add(name)
                whole[module.split(".")[-1]] |= set() if name else {file}
            elif not handed:
                unused.append((file, module, name or here))
    uncited = []
    for file, text in bodies.items():
        if file.suffix != ".antt":
            continue
        goals = file.stem in ("Answers", "Invariants") or file.parent.name == "laws"
        for is_public, name, block in blocks(text):
            if "◌" in name or is_public and goals or name in ("use", "mod", "ghost"):
                continue
            if words(text)[name] > words(block)[name]:
                continue
            if name in used or any(words(bodies[it])[name] for it in whole[module_of(file)]):
                continue
            uncited.append((file.relative_to(ROOT / "crates"), name, len(block.strip().splitlines()), is_public, bool(pages[name])))
    for where, name, lines, is_public, on_page in sorted(uncited):
        marks = [", public"] * is_public + [", named by a page or a test"] * on_page + [", a vector"] * ("Vectors" in where.parts[-1])
        print(f"{where}: {name}, {lines} lines{''.join(marks)}")
    print(f"{len(uncited)} definitions of {sum(it[2] for it in uncited)} lines that nothing cites; {sum(it[3] for it in uncited)} of them are public")
    if "--imports" in sys.argv[1:]:
        for file, module, name in sorted(unused):
            print(f"{file.relative_to(ROOT / 'crates')}: {module}.{name}")
    print(f"{len(unused)} imported names of {len({it[0] for it in unused})} files that are not used there")


main()
