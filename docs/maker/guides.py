"""Writes the documents in Markdown as pages of the reference."""
import html
import re
import subprocess

import code_pages
from sources import ROOT


def listed():
    """Returns the documents of the repository, the first page first."""
    files = subprocess.run(["git", "ls-files", "*.md"], cwd=ROOT, capture_output=True, text=True, check=True).stdout.split()
    return sorted((it for it in files if (ROOT / it).exists()), key=lambda it: (it != "README.md", it))


def address(name):
    """Returns the page of a document."""
    return "guide." + name.removesuffix(".md").replace("/", ".") + ".html"


def anchor(title, seen):
    """Returns the anchor of a heading, as most hosts of repositories make it."""
    name = re.sub(r"[^\w\- ]", "", re.sub(r"\[([^]]*)\]\([^)]*\)", r"\1", title).lower()).replace(" ", "-")
    seen[name] = seen.get(name, -1) + 1
    return f"{name}-{seen[name]}" if seen[name] else name


class Guide:
    """One document on its way to a page."""

    def __init__(self, reference, name):
        self.reference, self.name, self.seen = reference, name, {}
        self.done, self.paragraph, self.rows = [], [], []

    def link(self, found):
        """Returns a link to another page of the reference, to what is elsewhere, or the text alone."""
        text, (file, _, place) = found[1], found[2].partition("#")
        if file.startswith("http"):
            return found[0]
        target = ((ROOT / self.name).parent / file).resolve() if file else ROOT / self.name
        inside = str(target.relative_to(ROOT)) if target.is_relative_to(ROOT) else ""
        if inside in self.reference.guides:
            return f'<a href="{address(inside)}{"#" + place if place else ""}">{text}</a>'
        page = self.reference.page_of(target)
        return f'<a href="{page}">{text}</a>' if page else text

    def inline(self, text):
        """Returns a line of prose."""
        codes = []
        hidden = re.sub(r"<code>.*?</code>", lambda it: codes.append(it[0]) or "\0", self.reference.inline(text))
        marked = re.sub(r"\*(\w[^*]*)\*", r"<em>\1</em>", re.sub(r"\*\*([^*]+)\*\*", r"<b>\1</b>", hidden))
        shown = re.sub("\0", lambda _: codes.pop(0), marked)
        return re.sub(r"\[([^]]+)\]\(([^)\s]+)\)", self.link, shown)

    def close(self):
        """Ends a paragraph or a list."""
        if self.paragraph:
            self.done.append(f"<p>{self.inline(' '.join(self.paragraph))}</p>")
        if self.rows:
            self.done.append("<ul>" + "".join(f"<li>{self.inline(it)}</li>" for it in self.rows) + "</ul>")
        self.paragraph, self.rows = [], []

    def block(self, lines, language):
        """Adds code, in colour if it is Rattle or a language like it."""
        self.close()
        text = "\n".join(lines)
        is_code = language in ("", "rust", "rs", "rt", "c", "cpp", "js") or text.startswith("// ")
        self.done.append(f"<pre>{code_pages.colored(text) if is_code else html.escape(text, quote=False)}</pre>")

    def table(self, lines):
        """Adds a table, whose second line is the rule below its head."""
        self.close()
        rows = [[self.inline(it.replace("\0", "|").strip()) for it in line.replace("\\|", "\0").strip().strip("|").split("|")] for line in lines]
        head = f'<tr>{"".join(f"<th>{it}</th>" for it in rows[0])}</tr>' if any(rows[0]) else ""
        body = "".join("<tr>" + "".join(f"<td>{it}</td>" for it in row) + "</tr>" for row in rows[2:])
        is_prose = any(len(re.sub("<.*?>", "", it)) > 25 for row in rows[2:] for it in row[1:])
        kind = "wide" if len(rows[0]) <= 3 else "wide many prose" if is_prose else "wide many"
        self.done.append(f'<div class="scroll"><table class="{kind}">{head}{body}</table></div>')

    def page(self):
        """Returns the document as HTML."""
        left = (ROOT / self.name).read_text().split("\n")
        while left:
            line = left.pop(0)
            if line.startswith("```"):
                end = next((it for it, text in enumerate(left) if text.startswith("```")), len(left))
                self.block(left[:end], line[3:].strip())
                left = left[end + 1:]
            elif line.startswith("    ") and not self.paragraph and not self.rows:
                end = next((it for it, text in enumerate(left) if text and not text.startswith("    ")), len(left))
                self.block([it[4:] for it in [line, *left[:end]]], "shell")
                left = left[end:]
            elif left and "|" in line and re.fullmatch(r"[|\s:-]+", left[0]) and "-" in left[0]:
                end = next((it for it, text in enumerate(left) if "|" not in text), len(left))
                self.table([line, *left[:end]])
                left = left[end:]
            elif found := re.match(r"(#+) (.*)", line):
                self.close()
                level, place = min(len(found[1]), 4), anchor(found[2], self.seen)
                self.done.append(f'<h{level} id="{place}">{self.inline(found[2])}</h{level}>')
                if level > 1 and not self.name.endswith("SIGNATURES.md"):  # (whose sections are items)
                    self.reference.add(re.sub("`", "", found[2]), f"section of {self.name}", "", f"{address(self.name)}#{place}")
            elif found := re.match(r"(?:[-*]|\d+\.) (.*)", line):
                if self.paragraph:
                    self.close()
                self.rows.append(found[1])
            elif self.rows and line.startswith("  "):
                self.rows[-1] += " " + line.strip()
            elif line.strip():
                self.paragraph.append(line.removeprefix("> ").strip())
            else:
                self.close()
        self.close()
        return "\n".join(self.done)


def pages(reference):
    """Writes a page for each document. Returns the rows of the table of them, each an address, a title and a sentence."""
    rows = []
    for name in reference.guides:
        text = (ROOT / name).read_text()
        title = re.search(r"^#+ (.*)", text, re.M)
        title = title[1] if title else name
        reference.write(address(name), title, Guide(reference, name).page())
        reference.add(re.sub("`", "", title), "document", name, address(name))
        rows.append((address(name), html.escape(title), name))
    return rows
