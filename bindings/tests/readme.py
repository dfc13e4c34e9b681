"""Runs what the pages on the bindings show of each language, and compares what it prints with the
remark on the line that prints. Arguments: the folder bindings, and a folder to work in. Without node
those in JavaScript are skipped.
"""

import os
import pathlib
import re
import shutil
import subprocess
import sys
import tempfile

here, room = pathlib.Path(sys.argv[1]).resolve(), pathlib.Path(sys.argv[2]).resolve()
build = pathlib.Path(os.environ["ZEROTRIE_LIB"])
names = ("C.md", "CPP.md", "PYTHON.md", "JAVASCRIPT.md")
docs = [here.parent / "docs" / name for name in names]
pages = [here / "python/README.md", here.parent / "README.md", *docs]


def compiled(command, name, text):
    """The program that the compiler makes of the text."""
    (room / name).write_text(text)
    flags = [f"-I{here}/c", "-Wall", "-Wextra", "-Werror"]
    made = [str(room / name), str(build / "libzerotrie.a"), "-o", str(room / "shown")]
    subprocess.run([*command, *flags, *made], check=True)
    return [str(room / "shown")]


def in_javascript(body):
    """The program, beside a package that has the reader."""
    modules = room / "shown-js/node_modules"
    modules.mkdir(parents=True, exist_ok=True)
    if not (modules / "zerotrie-read").exists():
        (modules / "zerotrie-read").symlink_to(here.resolve() / "js")
    (room / "shown-js/shown.mjs").write_text(body)
    return ["node", str(room / "shown-js/shown.mjs")]


def program(language, body):
    if language == "js":
        return in_javascript(body)
    if language == "c":
        headers = "".join(f"#include <{it}>\n" for it in ("fcntl.h", "stdio.h", "sys/mman.h"))
        text = f'#include "zerotrie.h"\n{headers}int main(void) {{\n{body}}}\n'
        return compiled([os.environ.get("CC", "cc"), "-std=c11"], "shown.c", text)
    if language == "cpp":
        headers = "".join(f"#include {it}\n" for it in ('"zerotrie.hpp"', "<fcntl.h>", "<iostream>", "<map>", "<sys/mman.h>", "<sys/stat.h>"))
        text = f"{headers}int main() {{\n{body}}}\n"
        compiler = [os.environ.get("CXX", "c++"), "-std=c++17"]
        # programs without exceptions and run-time types take the header too
        compiled([*compiler, "-fno-exceptions", "-fno-rtti"], "shown.cpp", text)
        return compiled(compiler, "shown.cpp", text)
    (room / "shown.py").write_text(body)
    return [sys.executable, str(room / "shown.py")]


def shown(page):
    """The languages and the texts of the examples of a page."""
    found = re.findall(r"^```(c|cpp|python|js)\n(.*?)^```", page.read_text(), re.M | re.S)
    assert found, page
    return found


def run(page, language, body):
    """Runs an example."""
    want = re.findall(r"(?:print|cout|console).*?(?://|#) (.*)", body)
    want = [line.rstrip() for line in want]
    environment = {**os.environ, "PYTHONPATH": str(here / "python")}
    command = program(language, body)
    # in a folder of its own, where it may write files
    with tempfile.TemporaryDirectory(dir=room) as folder:
        done = subprocess.run(command, check=True, capture_output=True, text=True, env=environment, cwd=folder)
    assert want and [line.rstrip() for line in done.stdout.splitlines()] == want, (page, language, done.stdout, want)
    assert page.parent.name != "docs" or body.count("\n") <= 12, (page, language, body)


examples = [(page, *example) for page in pages for example in shown(page)]
assert {language for _, language, _ in examples} == {"c", "cpp", "python", "js"}
if not shutil.which("node"):
    print("skipped: what needs node")
    examples = [example for example in examples if example[1] != "js"]
for example in examples:
    run(*example)
print(f"readme: {len(examples)} examples on {len(pages)} pages run")
