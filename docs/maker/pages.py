"""Writes the pages of the reference."""
import html
import json
import re

import code_pages
import definitions
import guides
import sources
from sources import ROOT

HERE = ROOT / "docs" / "maker"
NAME = re.compile(r"(?<![\w'])([A-Za-z_]\w*)")
ORDER = ["list", "keys", "cursor", "bytes", "json", "array"]  # the modules of a type's calls, after its own
KEYWORDS = code_pages.KEYWORDS.split()
SIDE = 8  # from so many headings on, a page has a list of them beside it


class Reference:
    """The pages that are written so far, and what they are made of."""

    def __init__(self, out):
        self.out = out
        self.index = []  # what the search finds
        self.undocumented = []  # items and calls, which are faults
        self.notes = []  # fields and variants, which are none
        self.items = {}  # by module and name
        for module, name, item in sources.public():
            if item is None:
                raise SystemExit(f"the public name {name} of {module or 'zerotrie'} is not found")
            self.items.setdefault((module, name), item)
        self.pages = {}  # the address of each item, by its name: that of the first module that has it
        for module, name in self.items:
            self.pages.setdefault(name, address(module, name))
        variants = [(part.name, name) for (_, name), item in self.items.items() if item.kind == "enum" for part in item.parts]
        self.variants = {part: name for part, name in variants if [it for it, _ in variants].count(part) == 1}
        self.parts_of_enums = {f"{name}::{part}" for part, name in variants}
        self.impls = sources.all_impls()
        proofs = ROOT / "crates" / "zerotrie" / "proofs"
        self.lemmas = [proofs / f"{it}.antt" for it in re.findall(r"^pub mod (\w+)$", (proofs / "Lib.antt").read_text(), re.M)]
        self.specs = definitions.cited([it.file for it in self.items.values()] + [it.file for it in self.impls] + self.lemmas)
        self.sources = set(code_pages.shown())
        self.guides = guides.listed()
        self.words = dict(re.findall(r"^(\w+): (.*)", (HERE / "words.txt").read_text(), re.M))

    def write(self, name, title, body):
        """Writes a page, with a list of its headings beside it if there are many."""
        heads = re.findall(r'<h([23]) id="([^"]+)">(.*?)</h[23]>', body, re.S)
        rows = "".join(f'<a class="h{level}" href="#{place}">{re.sub("<a class=.source.*?</a>|<.*?>", "", text)}</a>' for level, place, text in heads)
        side = f"<nav>{rows}</nav>" if len(heads) >= SIDE else ""
        (self.out / name).write_text(
            f'<!doctype html>\n<html lang="en"><meta charset="utf-8"><meta name="viewport" content="width=device-width, '
            f'initial-scale=1"><title>{html.escape(title)}</title><link rel="stylesheet" href="style.css">\n<header><div>'
            f'<a href="index.html">zerotrie</a><input type="search" placeholder="Search names (press /)" aria-label="Search">'
            f'</div></header>\n{side}<main><ul id="search-results"></ul>\n{body}\n</main><script src="search.js"></script></html>\n')

    def add(self, name, place, text, where):
        """Adds a row to what the search finds."""
        self.index.append([name, place, text, where])

    # What stands in a page.

    def linked(self, text, own=()):
        """Returns code with its names linked to the pages of their items, but for those of the page itself."""
        def link(found):
            name = found[1]
            if name in KEYWORDS:
                return f'<span class="word">{name}</span>'
            return f'<a href="{self.pages[name]}">{name}</a>' if name in self.pages and name[0].isupper() and name not in own else name
        return whole_arrows(NAME.sub(link, html.escape(text, quote=False)))

    def word_link(self, file, name):
        """Returns the address and the comment of a word of a clause or a definition, if it is the library's."""
        where = definitions.meaning(file, name)
        if isinstance(where, tuple) and where[0] == "item":
            if where[1] not in self.pages:
                return None
            return self.pages[where[1]] + ("" if where[1] == where[2] else f"#{where[2]}"), ""
        if isinstance(where, tuple) and where[0] in self.specs:
            return f"{spec_address(where[0])}#{where[1]}", definitions.comment_of(*where)
        if where == "std" and name in self.words:
            return f"words.html#{name}", self.words[name].replace("`", "")
        return None

    def page_of(self, file):
        """Returns the page of a file of the repository: of definitions, lemmas or code. `None` if it has none."""
        if file in self.specs or file in self.lemmas:
            return spec_address(file)
        return code_pages.address(file) if file in self.sources else None

    def source(self, item):
        """Returns a link to where an item begins in the sources."""
        return f'<a class="source" href="{code_pages.address(item.file)}#{item.line}">source</a>' if item.file in self.sources else ""

    def clause(self, file, text, here=None):
        """Returns the text of a clause or a definition with each word linked to where it is defined."""
        done, end = [], 0
        for found in definitions.WORD.finditer(text):
            name, before = found[0], text[: found.start()]
            done.append(html.escape(text[end:found.start()], quote=False))
            end = found.end()
            link = self.ghost_link(name) if before.endswith(".") else self.word_link(file, name)
            if link and link[0] != here:
                done.append(f'<a href="{link[0]}" title="{html.escape(link[1])}">{name}</a>')
            else:
                done.append(name)
        return "".join(done) + html.escape(text[end:], quote=False)

    def ghost_link(self, name):
        """Returns the address of a part of a trait that a clause names after a full stop."""
        for (module, trait), item in self.items.items():
            if item.kind == "trait" and any(part.kind == "ghost" and part.name == name for part in item.parts):
                return f"{address(module, trait)}#{name}", f"a part of the trait {trait}"
        return None

    def contract(self, item):
        """Returns the clauses of a function, behind a fold."""
        if not item.clauses:
            return ""
        text = "\n".join(f"{word} {f'<b>{name}</b> ' if name else ''}{{ {self.clause(item.file, body)} }}" for word, name, body in item.clauses)
        return f"<details><summary>Contract</summary>{hanging(text.splitlines())}</details>"

    def prose(self, lines, near=()):
        """Returns a doc comment as HTML. `near` are the names of the calls of the same page."""
        done, paragraph, example, rows = [], [], None, []

        def close():
            if paragraph:
                done.append(f"<p>{self.inline(' '.join(paragraph), near)}</p>")
                paragraph.clear()
            if rows:
                done.append("<ul>" + "".join(f"<li>{self.inline(it, near)}</li>" for it in rows) + "</ul>")
                rows.clear()

        for line in lines:
            if example is not None:
                if line.startswith("```"):
                    done.append(f"<pre>{code_pages.colored(chr(10).join(example))}</pre>")
                    example = None
                else:
                    example.append(line)
            elif line.startswith("```"):
                close()
                example = []
            elif line.startswith("#"):
                close()
                done.append(f"<h4>{self.inline(line.lstrip('# '), near)}</h4>")
            elif line.startswith("- "):
                if paragraph:
                    close()
                rows.append(line[2:])
            elif rows and line.startswith("  "):
                rows[-1] += " " + line.strip()
            elif line.strip():
                paragraph.append(line.strip())
            else:
                close()
        close()
        return "\n".join(done)

    def inline(self, text, near=()):
        """Returns a line of prose with its code and links."""
        def named(found):
            text = found[1]
            parts = re.fullmatch(r"(\w+)(?:::(\w+))?.*", text, re.S)
            if parts and parts[2] and parts[1] in self.pages and f"{parts[1]}::{parts[2]}" in self.calls | self.parts_of_enums:
                return f'<a href="{self.pages[parts[1]]}#{parts[2]}"><code>{text}</code></a>'
            if parts and parts[1] in near:
                return f'<a href="#{parts[1]}"><code>{text}</code></a>'
            if parts and parts[1] in self.pages and re.fullmatch(r"\w+(<.*)?", text):
                return f'<a href="{self.pages[parts[1]]}"><code>{text}</code></a>'
            if text in sources.LINES and any(text in it.parts for it in self.sources):
                return f'<a href="sources.html#{text}"><code>{text}</code></a>'
            if text in self.variants:
                return f'<a href="{self.pages[self.variants[text]]}#{text}"><code>{text}</code></a>'
            lemmas = next((it for it in self.lemmas if it.stem == text), None)
            if lemmas:
                return f'<a href="{spec_address(lemmas)}"><code>{text}</code></a>'
            if text == "laws":
                return f'<a href="index.html#laws"><code>{text}</code></a>'
            return f"<code>{whole_arrows(text)}</code>"
        text = re.sub(r"\[(`[^`]+`)\](?!\()", r"\1", html.escape(text, quote=False))
        text = re.sub(r"`([^`]+)`", named, text)
        return re.sub(r"\[([^]]+)\]\((https?://[^)]+)\)", r'<a href="\2">\1</a>', text)

    def sentence(self, lines):
        """Returns the first sentence of a doc comment."""
        text = " ".join(line if line.strip() else "\n" for line in lines).split("\n")[0].split("```")[0].strip()
        return re.split(r"(?<=[.]) (?=[A-Z`])", text)[0].rstrip(":")

    # Items.

    def methods(self, name, item):
        """Returns the impl blocks of a type: its own, and those of traits."""
        of, kinds = name, ""
        if item.kind == "type" and (alias := re.search(r"= (\w+)<(?:'\w+, )?(\w+)", item.text)):
            of, kinds = alias.groups()
        own = [it for it in self.impls if it.type == of or it.type == name]
        if kinds:
            others = {"Simple", "Ignore", "Hash", "Ext"} - {kinds}
            own = [it for it in own if it.type == name or not others & set(NAME.findall(it.arguments))]
        elif item.kind == "struct":  # what an alias alone has is that type's too
            names = [other for (_, other), it in self.items.items() if it.kind == "type" and re.search(rf"= {name}<", it.text)]
            own += [it for it in self.impls if it.type in names]
        return [it for it in own if not it.trait], [it for it in own if it.trait and it.trait.split("<")[0] != "Model"]

    def public_methods(self, impls):
        """Returns the public methods of impl blocks, each with its block."""
        return [(it, block) for block in impls for it in block.methods if it.kind == "fn" and it.is_public]

    def call(self, item, block, near, level="h3", mark=""):
        """Returns a method: its signature, its text and its contract."""
        anchor = item.name + mark
        where = f'<p class="soft">{self.linked(block.header)}</p>' if block else ""
        return (f'<{level} id="{anchor}"><a href="#{anchor}"><code>{item.name}</code></a>{self.source(item)}</{level}>\n'
                f'<pre class="signature">{self.linked(item.text)}</pre>{where}\n{self.prose(item.doc, near)}\n{self.contract(item)}')

    def need(self, item, what):
        """Notes a public item with no doc comment."""
        if not item.doc:
            self.undocumented.append(f"{item.file.relative_to(ROOT)}:{item.line}: {what} has no doc comment")

    def parts(self, item):
        """Returns the fields or variants of a type."""
        done = ""
        for part in item.parts:
            if not part.doc:
                self.notes.append(f"{item.file.relative_to(ROOT)}:{part.line}: {item.name}::{part.name} has no doc comment")
            message = next((it[1] for note in part.notes if (it := re.match(r'#\[error\("(.*)"\)\]', note))), "")
            message = f'<p class="soft">prints: {html.escape(message)}</p>' if message else ""
            done += f'<h3 id="{part.name}"><code>{self.linked(part.text.removeprefix("pub "))}</code></h3>\n{self.prose(part.doc)}{message}'
            self.add(part.name, f"{'variant' if item.kind == 'enum' else 'field'} of {item.name}", self.sentence(part.doc).replace("`", ""),
                     f"{self.pages[item.name]}#{part.name}")
        title = "Variants" if item.kind == "enum" else "Fields"
        return f'<h2 id="{title.lower()}--">{title}</h2>{done}' if done else ""

    def trait(self, name, item):
        """Returns the members of a trait, and the types that have it."""
        done = []
        for part in item.parts:
            if part.kind == "ghost":
                text = part.text.removeprefix("ghost ")
                done.append(f'<h3 id="{part.name}{"-value" if part.name.isupper() else ""}"><code>ghost {part.name}</code></h3>'
                            + hanging([self.clause(part.file, text.split(": ", 1)[1])]))
                continue
            self.need(part, f"{name}::{part.name}")
            if part.kind == "fn":
                self.add(part.name, name, self.sentence(part.doc).replace("`", ""), f"{self.pages[name]}#{part.name}")
            done.append(self.call(part, None, [it.name for it in item.parts]) if part.kind == "fn" else
                        f'<h3 id="{part.name}"><code>{html.escape(part.text)}</code></h3>\n{self.prose(part.doc)}')
        impls = [it.header for it in self.impls if it.trait.split("<")[0] == name]
        rows = "".join(f"<li><code>{self.linked(it, [name])}</code></li>" for it in impls)
        return "".join(done) + (f'<h2 id="implemented--">Implemented by</h2><ul>{rows}</ul>' if rows else "")

    def traits_of(self, traits):
        """Returns the library's own traits of a type with these impl blocks, those that another one of them gives it too."""
        own = {name: it for (_, name), it in self.items.items() if it.kind == "trait" and any(part.kind == "fn" for part in it.parts)}
        found = dict.fromkeys(name for block in traits if (name := block.trait.split("<")[0]) in own)
        for block in self.impls:
            given = re.match(r"impl<(\w+): (\w+)> (\w+) for \1$", block.header)
            if given and given[2] in found:
                found[given[3]] = None
        return {name: own[name] for name in found}

    def shared_calls(self, traits):
        """Returns the calls that traits of the library give to a type with these impl blocks, with links to the pages of the traits."""
        done = ""
        for name, trait in self.traits_of(traits).items():
            rows = ""
            for it in trait.parts:
                if it.kind == "fn":
                    rows += f'<tr><td><a href="{self.pages[name]}#{it.name}"><code>{breaking(it.name)}</code></a><td>{self.inline(self.sentence(it.doc))}'
            done += f'<h2 id="of-{name}">Calls of every {self.linked(name)}</h2><table>{rows}</table>\n'
        return done

    def type(self, name, item):
        """Returns the calls of a type, by the modules that they are in, and its traits."""
        own, traits = self.methods(name, item)
        calls = self.public_methods(own)
        if item.kind == "type" and (of := re.search(r"= (\w+)<", item.text)) and of[1] in self.pages:
            return self.alias(name, of[1], calls, traits)
        near = [it.name for it, _ in calls]
        groups = {}
        calls.sort(key=lambda it: -1 if it[1].file == item.file or it[1].file.stem not in ORDER else ORDER.index(it[1].file.stem))
        for it, block in calls:
            self.need(it, f"{name}::{it.name}")
            groups.setdefault(sources.title_of(block.file) if len({b.file for _, b in calls}) > 1 else "Calls", []).append((it, block))
        done, seen = "", set()
        for title, several in groups.items():
            rows = ""
            for it, _ in several:
                rows += f'<tr><td><a href="#{it.name}"><code>{breaking(it.name)}</code></a><td>{self.inline(self.sentence(it.doc), near)}'
            place = re.sub(r"\W+", "-", title.lower()).strip("-")
            done += f'<h2 id="{place}--">{self.inline(title)}</h2><table>{rows}</table>\n'
            for it, block in several:
                mark = "" if it.name not in seen else f"-{sum(x.name == it.name for x, _ in calls)}"
                seen.add(it.name)
                generic = re.fullmatch(r"impl(<.*>)? \w+(<[^>]*>)?", block.header)
                done += self.call(it, None if generic else block, near, mark=mark)
                self.add(it.name, f"{name}", self.sentence(it.doc).replace("`", ""), f"{self.pages[name]}#{it.name}")
        done += self.shared_calls(traits)
        rows = ""
        for block in traits:
            inner = f'<pre class="signature">type Item = {self.linked(block.item)};</pre>' if block.item else ""
            inner += "".join(f'<pre class="signature">{self.linked(it.text)}</pre>{self.contract(it)}' for it in block.methods if it.kind == "fn")
            rows += f"<details><summary><code>{html.escape(block.header)}</code></summary>{inner}</details>" if inner else \
                f'<p class="soft"><code>{self.linked(block.header, [name])}</code></p>'
        derived = ", ".join(it for note in item.notes for it in re.findall(r"derive\((.*)\)", note))
        rows += f'<p class="soft">derived: <code>{derived}</code></p>' if derived else ""
        return done + (f'<h2 id="traits">Traits</h2>{rows}' if rows else "")

    def alias(self, name, of, calls, traits):
        """Returns the calls of a name for a type at one kind: its own, and links to those of the type."""
        mine = [(it, block) for it, block in calls if block.type == name]
        for it, _ in mine:
            self.need(it, f"{name}::{it.name}")
            self.add(it.name, name, self.sentence(it.doc).replace("`", ""), f"{self.pages[name]}#{it.name}")
        done = "".join(self.call(it, block, [it.name for it, _ in mine]) for it, block in mine)
        rows = ""
        for it, block in calls:
            if block.type != name:
                rows += f'<tr id="{it.name}"><td><a href="{self.pages[of]}#{it.name}"><code>{breaking(it.name)}</code></a><td>{self.inline(self.sentence(it.doc))}'
        done += f'<h2 id="of-{of}">Calls of {self.linked(of)}</h2><table>{rows}</table>\n'
        return done + self.shared_calls(traits)

    def item_page(self, module, name, item):
        """Writes the page of an item."""
        self.need(item, name)
        owner = owner_of(module)
        path = f"{owner}::{name}"
        kept = " { /* private fields */ }" if "private" in item.notes and not item.parts else ""
        body = (f'<h1><small>{item.kind} of {owner}</small>{name}{self.source(item)}</h1>\n'
                f'<pre class="signature">{self.linked(item.text, [name])}{kept}</pre>\n')
        own = [it.name for it, _ in self.public_methods(self.methods(name, item)[0])] if item.kind in ("struct", "enum", "type") else []
        body += f"{self.prose(item.doc, own)}{self.contract(item)}"
        if item.kind == "trait":
            body += self.trait(name, item)
        elif item.kind in ("struct", "enum", "type"):
            body += self.parts(item) + self.type(name, item)
        body += f'<p class="soft">use {path};</p>'
        self.add(name, f"{item.kind} of {owner}", self.sentence(item.doc).replace("`", ""), address(module, name))
        self.write(address(module, name), path, body)

    def spec_page(self, file):
        """Writes the page of a file of definitions."""
        lines = file.read_text().split("\n")
        title = spec_title(file)
        names = {line: name for name, line in definitions.heads(file).items()}
        about = lines[0][3:] if lines[0].startswith("-- ") else ""
        body, block = [f"<h1><small>definitions</small>{title}</h1><p>{self.inline(about)}</p>"], []

        def close():
            least = min((len(raw) - len(raw.lstrip()) for raw, _ in block), default=0)
            if block:
                body.append(hanging([text[least:] for _, text in block]))
            block.clear()

        said = []
        for number, line in enumerate(lines[1:], 1):
            bare = line.strip()
            if bare.startswith(("use ", "pub use ")) or bare in ("mutual", "abbrev mutual"):
                continue
            if bare.startswith("-- "):
                close()
                said.append(bare[3:])
                continue
            if said:
                body.append(f"<p>{self.inline(' '.join(said))}</p>")
                said = []
            if not bare:
                close()
                continue
            here = f"{spec_address(file)}#{names[number]}" if number in names else None
            blanks = " " * (len(line) - len(bare))
            text = self.clause(file, bare, here)
            block.append((line, blanks + (f'<span id="{html.escape(names[number])}">{text}</span>' if number in names else text)))
            if number in names and re.match(r"\s*(abbrev|data|record|unfoldable|pub)", line):
                self.add(names[number], f"definition, {title}", definitions.comment_of(file, names[number]), here)
        close()
        self.write(spec_address(file), title, "\n".join(body))

    def lemma_page(self, file):
        """Writes the page of a file of lemmas for callers: what each states, without its proof."""
        lines = file.read_text().split("\n")
        about = lines[0][3:] if lines[0].startswith("-- ") else ""
        body, said, number = [f"<h1><small>lemmas for callers</small>{spec_title(file)}</h1><p>{self.inline(about)}</p>"], [], 0
        while (number := number + 1) < len(lines):
            line = lines[number]
            if line.startswith("-- "):
                said.append(line[3:])
                continue
            if found := re.match(r"(?:abbrev )?pub (?!use )(?:(record|data|abbrev) )?([\w-]+) ", line):
                is_whole = found[1] or line.startswith("abbrev")
                rows = [line]
                while lines[number + 1].strip() and (is_whole or lines[number + 1].startswith(" ")):
                    number += 1
                    rows.append(lines[number])
                name = found[2]
                body.append(f"<p>{self.inline(' '.join(said))}</p>" if said else "")
                body.append(f'<div id="{name}">{hanging([" " * (len(it) - len(it.lstrip())) + self.clause(file, it.strip()) for it in rows])}</div>')
                self.add(name, f"lemma, {spec_title(file)}", " ".join(said), f"{spec_address(file)}#{name}")
            said = []
        self.write(spec_address(file), spec_title(file), "\n".join(body))

    def table(self, items):
        """Returns a table of items."""
        rows = "".join(f'<tr><td><a href="{address(module, name)}"><code>{breaking(name)}</code></a><td>{self.inline(self.sentence(item.doc))}'
                       for (module, name), item in items.items())
        return f"<table>{rows}</table>"

    def home(self, others):
        """Writes the first page."""
        lib = sources.file_of("zerotrie", []).read_text()
        docs = [line[4:] for line in lib.splitlines() if line.startswith("//!")]
        about = next((number for number, line in enumerate(docs) if line.startswith("A crate that depends on")), len(docs))
        body = f"<h1><small>reference of the library</small>zerotrie</h1>{self.prose(docs[:about])}"
        places = {name: page for page, _, name in guides.pages(self)}
        links = " · ".join(f'<a href="{places[name]}">{title}</a>' for name, title in FIRST_PAGES.items() if name in places)
        body += f'<p>{links} · <a href="{code_pages.pages(self)}">all sources</a></p>'
        main = re.findall(r"^- \[?`(\w+)`", "\n".join(docs), re.M)
        tables = {
            "Tries": lambda it: it.name in main,
            "Errors": lambda it: any("Error)" in note for note in it.notes),
            "Functions": lambda it: it.kind == "fn",
            "Traits": lambda it: it.kind == "trait",
            "Other types": lambda it: True,
        }
        left = {key: item for key, item in self.items.items() if not key[0]}
        for title, takes in tables.items():
            some = {key: item for key, item in left.items() if takes(item)}
            left = {key: item for key, item in left.items() if key not in some}
            body += f'<h2 id="{title.lower().replace(" ", "-")}">{title}</h2>{self.table(some)}'
        for module, doc in sources.modules().items():
            if some := {key: item for key, item in self.items.items() if key[0] == module}:
                body += f'<h2 id="{module}">{owner_of(module)}</h2>{self.prose(doc)}{self.table(some)}'
        body += '<h2 id="languages">Other languages</h2>' + "".join(f"<p>{it}</p>" for it in others if "left out" not in it)
        rows = ""
        for file in self.lemmas:
            first = file.read_text().split("\n")[0]
            rows += f'<tr><td><a href="{spec_address(file)}"><code>{spec_title(file)}</code></a><td>{self.inline(first[3:])}'
        body += f'<h2 id="lemmas">Lemmas for callers</h2>{self.prose(docs[about:])}<table>{rows}</table>'
        rows = ""
        for file in self.specs:
            first = file.read_text().split("\n")[0]
            rows += f'<tr><td><a href="{spec_address(file)}"><code>{spec_title(file)}</code></a><td>{self.inline(first[3:])}'
        body += f'<h2 id="definitions">Definitions</h2>{READING}<table>{rows}</table>'
        self.write("index.html", "zerotrie", body)
        rows = "".join(f'<tr id="{name}"><td><code>{name}</code><td>{self.inline(html.escape(said, quote=False))}' for name, said in self.words.items())
        self.write("words.html", "words of std", f"<h1><small>words in contracts</small>Words of the kit's std</h1><table>{rows}</table>")

    def all(self, others):
        """Writes all pages."""
        self.calls = {f"{name}::{it.name}" for (_, name), item in self.items.items() if item.kind in ("struct", "enum", "type")
                      for it, _ in self.public_methods(self.methods(name, item)[0])}
        for (module, name), item in self.items.items():
            self.item_page(module, name, item)
        for file in self.specs:
            self.spec_page(file)
        for file in self.lemmas:
            self.lemma_page(file)
        self.home(others)
        (self.out / "style.css").write_text((HERE / "style.css").read_text())
        (self.out / "search.js").write_text(f"const INDEX = {json.dumps(self.index, ensure_ascii=False)};\n{(HERE / 'search.js').read_text()}")


# The documents that the first page names.
FIRST_PAGES = {
    "README.md": "README", "docs/CALLING.md": "calls by purpose", "docs/SIGNATURES.md": "signatures", "docs/FORMAT.md": "the format",
    "docs/MODEL.md": "what is proved", "docs/DIFFERENCES.md": "differences from the crate", "docs/README.md": "all pages",
}

READING = """<p>A call's contract is behind its fold. <code>ensures</code> says what holds when the call returns, and
<code>requires</code> what its caller must know before. <code>x.now</code> is what the reference <code>x</code> points to; of a
<code>&amp;mut</code> it is <code>x.old</code> before the call and <code>x.new</code> after it. <code>v.items</code> are the items of a vector.
<code>→</code> is “then”, or “for all” after a name in parentheses; <code>×</code> is “and”, or “there is”; <code>⊎</code> is “or”;
<code>≡</code> is “equals”; <code>→ ⊥</code> is “not”. <code>IfOk result (λ r. ..)</code> says that the fact holds of <code>r</code> if the result
is <code>Ok(r)</code>. Follow a word to its definition; words without a link are of the kit's standard library. <code>abbrev</code> begins a
definition by equations, <code>data</code> a relation with one case for each way in which it holds, and <code>record</code> a fact that
holds if all of its fields do.</p>"""


def owner_of(module):
    """Returns the path of a module of zerotrie, or of a crate beside it."""
    return module if module.startswith("zerotrie_") else f"zerotrie::{module}" if module else "zerotrie"


def whole_arrows(text):
    """Returns marked-up code whose arrows do not break."""
    return text.replace("-&gt;", '<span class="arrow">-&gt;</span>')


def breaking(name):
    """Returns a name that may break after each underscore."""
    return name.replace("_", "_<wbr>")


def hanging(lines):
    """Returns marked-up lines as a block in which a line that is too long goes on further to the right."""
    rows = "".join(f'<span class="line" style="padding-left: {len(it) - len(it.lstrip()) + 6}ch">{it.strip()}</span>' for it in lines)
    return f'<pre class="clause">{rows}</pre>'


def address(module, name):
    """Returns the page of an item."""
    return f"{module.replace('::', '.') + '.' if module else ''}{name}.html"


def spec_title(file):
    """Returns the name of a file of definitions."""
    return str(file.relative_to(ROOT / "crates").with_suffix(""))


def spec_address(file):
    """Returns the page of a file of definitions."""
    return spec_title(file).replace("/", ".") + ".html"
