"""A source as its tokens, which the passes match and replace."""
import re
from typing import NamedTuple

TOKEN = re.compile(r"""
  (?P<space>\s+) | (?P<doc>//[/!](?!/)[^\n]*) | (?P<comment>//[^\n]*)
| (?P<string>b?"(?:\\.|[^"\\])*"|b?r(?P<hash>\#*)".*?"(?P=hash))
| (?P<char>b?'(?:\\[^']+|\\'|[^'\\])') | (?P<lifetime>'[A-Za-z_]\w*)
| (?P<number>\d[0-9A-Za-z_]*) | (?P<word>[A-Za-z_]\w*) | (?P<mark>(?!/\*)[!-/:-@\[-`{-~])
""", re.X | re.S | re.A)
# what proofs alone read: each form begins with a word of its own, and has a block of antt or ends in a semicolon
GHOST = re.compile(r"(?:pub\s+)?ghost\s+(?:use\s[^;]*;|\w+\s*[:=]\s*(?=\{))")
DEFAULT = re.compile(r"\s*=\s*(?=\{)")  # what a ghost of a trait is if an impl says nothing
CLAUSE = re.compile(r"(?:requires|ensures)\*?(?:\s+\w+)?\s*(?=\{)")
# a name of antt may end in `'`, which begins no character
ANTT = re.compile(r"""--[^\n]*|"(?:\\.|[^"\\])*"|(?<![\w'])'(?:\\(?:u\{[^}]*\}|x..|.)|[^'\\])'|[{}]""", re.S)
# a function as a line begins it
HEAD = r'(?:#\[[^\n]*\] )?(?:pub(?:\([^)]*\))? )?(?:const |unsafe |extern "C" )*'
FUNCTION = re.compile(rf"^ *{HEAD}fn (\$?\w+)", re.M)
BLANK = ("space", "doc", "comment", "gone")
CLOSING = {"(": ")", "[": "]", "{": "}"}


class Refused(Exception):
    """Something that the maker does not know, with its file and line."""


class Token(NamedTuple):
    kind: str
    text: str
    place: int  # where it begins in the source


class Source:
    """The tokens of a source. Each keeps its number, as what is cut is left as tokens without text."""

    patterns = {}

    def __init__(self, text, name):
        self.text, self.name = text, name
        self.tokens = list(self.read())

    def read(self):
        """Yields the tokens. A ghost is one token with its block, and so is a clause."""
        place = 0
        while place < len(self.text):
            found = TOKEN.match(self.text, place)
            token = Token(found.lastgroup, found[0], place) if found else self.fail(place, "a token")
            if token.text in ("pub", "ghost", "requires", "ensures"):
                token = self.proof_part("ghost", GHOST, place) or self.proof_part("clause", CLAUSE, place) or token
            if token.text in ("ghost", "requires", "ensures"):
                self.fail(place, "a form that is not known")
            yield token
            place += len(token.text)

    def proof_part(self, kind, form, place):
        head = form.match(self.text, place)
        if not head:
            return None
        end = head.end() if head[0].endswith(";") else self.end_of_block(head.end())
        if kind == "ghost" and (default := DEFAULT.match(self.text, end)):
            end = self.end_of_block(default.end())
        end += kind == "ghost" and self.text[end : end + 1] in (",", ";")
        return Token(kind, self.text[place:end], place)

    def end_of_block(self, start):
        """Returns where a block of antt ends: braces balance outside of strings, characters and comments."""
        depth = 0
        for part in ANTT.finditer(self.text, start):
            depth += {"{": 1, "}": -1}.get(part[0], 0)
            if depth == 0:
                return part.end()
        return self.fail(start, "a block without an end")

    def fail(self, place, why):
        line = self.text.count("\n", 0, place) + 1
        raise Refused(f"{self.name}:{line}: {why}: {self.text[place:].split(chr(10))[0][:60]}")

    def refuse(self, at, why):
        self.fail(self.tokens[min(at, len(self.tokens) - 1)].place, why)

    def word(self, at):
        """Returns the text of a token of code, and "" of any other."""
        inside = 0 <= at < len(self.tokens) and self.tokens[at].kind not in BLANK
        return self.tokens[at].text if inside else ""

    def after(self, at, step=1):
        """Returns the number of the next token of code."""
        at += step
        while 0 <= at < len(self.tokens) and self.tokens[at].kind in BLANK:
            at += step
        return at

    def before(self, at):
        return self.after(at, -1)

    def each(self, *words):
        """Yields the number of each token that is one of these words."""
        for at in range(len(self.tokens)):
            if self.word(at) in words:
                yield at

    def functions(self):
        """Yields each function that is left: the number of `fn`, and its name."""
        for at in self.each("fn"):
            name = self.after(at)
            if self.word(name) != "(":
                yield at, self.word(name) + (self.word(self.after(name)) if self.word(name) == "$" else "")

    def find(self, at, *words):
        """Returns the number of the first token from `at` on that is one of these words."""
        for found in range(at, len(self.tokens)):
            if self.word(found) in words:
                return found
        return self.refuse(at, f"no {' or '.join(words)}")

    def close(self, at):
        """Returns the number of the token that closes the bracket at `at`."""
        depth = 0
        for end in range(at, len(self.tokens)):
            depth += (self.word(end) in CLOSING) - (self.word(end) in CLOSING.values())
            if depth == 0:
                return end
        return self.refuse(at, "a bracket without an end")

    def match(self, at, pattern):
        """Returns the number of the token after these ones, if they are there from `at` on, else 0."""
        if pattern not in self.patterns:
            self.patterns[pattern] = [it.text for it in Source(pattern, "a pattern").tokens if it.kind != "space"]
        for text in self.patterns[pattern]:
            if self.word(at) != text:
                return 0
            at = self.after(at)
        return at

    def part(self, start, end):
        return "".join(it.text for it in self.tokens[start:end])

    def inside(self, at):
        """Returns what the bracket at `at` has in it, on one line."""
        return " ".join(self.part(at + 1, self.close(at)).split()).rstrip(", ")

    def put(self, start, end, text, kind="new"):
        """Replaces tokens by a text, which no pass reads again."""
        place = self.tokens[start].place
        self.tokens[start:end] = [Token(kind, text, place)] + [Token("gone", "", place)] * (end - start - 1)

    def cut(self, start, end):
        if start < end:
            self.put(start, end, "", "gone")

    def cut_with_space(self, start, end):
        self.cut(start, end + (self.tokens[end].kind == "space"))

    def cut_item(self, start, end):
        """Cuts tokens with the indent in front of them, and the doc comments that belong to them."""
        while start > 0 and belongs(self.tokens[start - 1]):
            start -= 1
        self.cut(start, end)


def belongs(token):
    """Returns whether a token in front of an item goes with it."""
    if token.kind == "space":
        return token.text.count("\n") < 2
    return token.kind == "gone" or token.kind == "doc" and token.text.startswith("///")
