"""Colours code, and writes the pages of sources."""
import html
import re

from sources import LINES, ROOT, all_files

KEYWORDS = "as break const continue else enum ensures fn for ghost if impl in let loop match mod move mut pub ref requires return self Self " \
           "static struct super trait type use where while true false"
TOKEN = re.compile(
    r"(?P<remark>//[^\n]*)"
    r'|(?P<text>b?"(?:\\.|[^"\\])*"|b?\'(?:\\.[^\']*|[^\'\\\n])\')'
    r"|(?P<life>'[a-z_]\w*)"
    rf"|(?P<word>\b(?:{'|'.join(KEYWORDS.split())})\b)"
    r"|(?P<number>\b\d[\w.]*)")


def colored(text):
    """Returns Rust or Rattle as HTML with its comments, texts, words and numbers marked."""
    done, end = [], 0
    for found in TOKEN.finditer(text):
        done.append(html.escape(text[end:found.start()], quote=False))
        done.append(f'<span class="{found.lastgroup}">{html.escape(found[0], quote=False)}</span>')
        end = found.end()
    return "".join(done) + html.escape(text[end:], quote=False)


def address(file):
    """Returns the page of a source file."""
    return "source." + str(file.relative_to(ROOT / "crates").with_suffix("")).replace("/", ".") + ".html"


def shown():
    """Returns the source files that have pages: those of the library, and the callers with proofs."""
    return [*all_files(), *sorted((ROOT / "crates" / "zerotrie_uses" / "src").rglob("*.rt"))]


def pages(reference):
    """Writes a page for each source file, and the list of them. Returns the address of the list."""
    body, crate = "<h1><small>sources</small>Each module, and where it begins</h1>", ""
    for file in shown():
        lines = file.read_text().rstrip("\n").split("\n")
        place = file.relative_to(ROOT / "crates")
        rows = "".join(f'<i id="{number}"></i>{line}\n' for number, line in enumerate(colored("\n".join(lines)).split("\n"), 1))
        reference.write(address(file), str(place), f'<h1><small>source</small>{place}</h1><pre class="source">{rows}</pre>')
        if place.parts[0] != crate:
            crate = place.parts[0]
            body += f'<h2 id="{crate}">{crate}</h2><p class="soft">uses: {html.escape(LINES[crate].strip()) or "std alone"}</p>'
        said = " ".join(it[4:] for it in lines[:6] if it.startswith("//! ")).split(". ")[0]
        body += f'<p><a href="{address(file)}">{"/".join(place.parts[2:])}</a> <span class="soft">{reference.inline(said)}</span></p>'
    reference.write("sources.html", "sources", body)
    return "sources.html"
