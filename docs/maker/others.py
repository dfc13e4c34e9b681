"""Makes the pages of the other languages, where their tools are installed."""
import ast
import html
import pathlib
import re
import shutil
import subprocess
import tempfile
import textwrap

from sources import ROOT

BINDINGS = ROOT / "bindings"


def rust(out):
    """Runs rustdoc on the crate. Returns a line for the first page."""
    if not shutil.which("rustdoc"):
        return "Rust: <code>rustdoc</code> is not installed, so its pages are left out."
    source = ROOT / "rust" / "zerotrie" / "src" / "lib.rs"
    subprocess.run(["rustdoc", "--edition", "2024", "--crate-name", "zerotrie", source, "--out-dir", out / "rust"], check=True, capture_output=True, text=True)
    return '<a href="rust/zerotrie/index.html">Rust</a>: the package of plain Rust, by rustdoc'


DOXYGEN = """
PROJECT_NAME = zerotrie
INPUT = {c}/zerotrie.h {c}/zerotrie.hpp {c}/zerotrie_read.h
OUTPUT_DIRECTORY = {out}
HTML_OUTPUT = c
GENERATE_LATEX = NO
EXTRACT_ALL = YES
QUIET = YES
WARNINGS = NO
JAVADOC_AUTOBRIEF = YES
STRIP_FROM_PATH = {c}
VERBATIM_HEADERS = NO
HAVE_DOT = NO
CLASS_GRAPH = NO
INCLUDE_GRAPH = NO
INCLUDED_BY_GRAPH = NO
MACRO_EXPANSION = YES
EXPAND_ONLY_PREDEF = YES
PREDEFINED = __cplusplus=202002L ZEROTRIE_NONNULL= ZEROTRIE_ANSWERS= ZEROTRIE_MUST_USE= ZEROTRIE_NEEDS(x)= ZEROTRIE_ENUM= \\
    "ZEROTRIE_INLINE=static inline" ZEROTRIE_LIFETIMEBOUND= ZEROTRIE_VIEW=
EXCLUDE_SYMBOLS = zerotrie::detail
HTML_COLORSTYLE = AUTO_LIGHT
"""


def c(out):
    """Runs doxygen on the headers. Returns a line for the first page."""
    if not shutil.which("doxygen"):
        return "C and C++: <code>doxygen</code> is not installed, so its pages are left out."
    with tempfile.TemporaryDirectory() as folder:
        config = pathlib.Path(folder) / "Doxyfile"
        config.write_text(DOXYGEN.format(c=BINDINGS / "c", out=out))
        subprocess.run(["doxygen", config], check=True, capture_output=True, text=True, cwd=folder)
    return '<a href="c/zerotrie_8h.html">C</a> and <a href="c/annotated.html">C++</a>: the headers, by doxygen'


def signature(node):
    """Returns the head of a Python function."""
    result = f" -> {ast.unparse(node.returns)}" if node.returns else ""
    return f"{node.name}({ast.unparse(node.args)}){result}"


def docs(text):
    """Returns a docstring as HTML."""
    parts = re.split(r"\n\s*\n", text or "")
    done = []
    for part in parts:
        lines = part.split("\n")
        if all(it.startswith((">>>", "...", "    ")) or not it for it in lines) or lines[0].startswith(">>>"):
            done.append(f"<pre>{html.escape(textwrap.dedent(part))}</pre>")
        else:
            text = html.escape(" ".join(it.strip() for it in lines), quote=False)
            done.append("<p>" + re.sub(r"``?([^`]+)``?", r"<code>\1</code>", text) + "</p>")
    return "".join(done)


def python(reference):
    """Writes the page of the Python module, from its source. Returns a line for the first page."""
    tree = ast.parse((BINDINGS / "python" / "zerotrie" / "__init__.py").read_text())
    classes = {it.name: it for it in tree.body if isinstance(it, ast.ClassDef)}
    names = next(ast.literal_eval(it.value) for it in tree.body if isinstance(it, ast.Assign) and ast.unparse(it.targets[0]) == "__all__")
    defined = {it.name: it for it in tree.body if isinstance(it, (ast.ClassDef, ast.FunctionDef))}
    body = f"<h1><small>module for Python</small>zerotrie</h1>{docs(ast.get_docstring(tree))}"

    def members(node):
        found = {}
        for base in node.bases:
            name = ast.unparse(base).split("[")[0]
            found |= members(classes[name]) if name in classes else {}
        for it in node.body:
            shown = not it.name.startswith("_") or it.name in ("__init__", "__getitem__", "__contains__", "__len__", "__iter__", "__bool__") \
                if isinstance(it, ast.FunctionDef) else False
            if shown and not any("overload" in ast.unparse(mark) for mark in it.decorator_list):
                found[it.name] = it
        return found

    for name in names:
        node = defined.get(name)
        if node is None:
            continue
        said = ast.get_docstring(node) or ""
        first = said.split("\n\n")[0].replace("\n", " ")
        reference.add(name, "Python", first, f"python.html#{name}")
        if isinstance(node, ast.FunctionDef):
            body += f'<h3 id="{name}"><code>{html.escape(signature(node))}</code></h3>{docs(said)}'
            continue
        body += f'<h2 id="{name}"><code>{name}</code></h2>{docs(said)}'
        for method, it in members(node).items():
            if ast.get_docstring(it) is None and method.startswith("__"):
                continue
            body += f'<h3 id="{name}.{method}"><code>{html.escape(signature(it))}</code></h3>{docs(ast.get_docstring(it))}'
            reference.add(f"{name}.{method}", "Python", (ast.get_docstring(it) or "").split("\n\n")[0].replace("\n", " "), f"python.html#{name}.{method}")
    reference.write("python.html", "zerotrie for Python", body)
    return '<a href="python.html">Python</a>: the module <code>zerotrie</code>'
