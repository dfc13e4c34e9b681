"""What thiserror's derive writes: the text of an error, `Error`, and `From` for the fields that are marked."""
import re

DISPLAY = """

impl core::fmt::Display for {name} {{
    #[inline]
    fn fmt(&self, f: &mut core::fmt::Formatter<'_>) -> core::fmt::Result {{
{lines}
    }}
}}

impl core::error::Error for {name} {{}}
"""
FROM = """
impl{of} From<{type}> for {name} {{
    fn from({field}: {type}) -> Self {{
        Self::{variant}({value})
    }}
}}
"""


def implement(source, at):
    """Writes the impls for the type whose attributes begin at `at`, and leaves out the attributes of thiserror."""
    item = source.find(at, "enum", "struct")
    name, owner, body, end = head(source, item)
    own = [it for it in range(at, item) if source.match(it, "#[error")]
    if own:
        lines, froms = one_text(source, own[0], item, body, end), ""
    elif source.word(item) == "enum":
        arms, froms = variants(source, name, source.after(body), end)
        lines = f"        match self {{\n{arms}        }}"
    else:
        source.refuse(item, "an error without a text")
    for mark in range(at, end):
        bracket = source.match(mark, "#[error") or source.match(mark, "#[from")
        if bracket:
            source.cut_with_space(mark, source.close(source.after(mark)) + 1)
    source.put(end + 1, end + 2, DISPLAY.format(name=owner, lines=lines) + froms + source.tokens[end + 1].text[1:])


def head(source, item):
    """Returns the name of a type, the same with its lifetime, and where its body begins and ends."""
    name = source.word(source.after(item))
    owner, body = name, source.find(item, "{", ";", "<", "(")
    if re.fullmatch(r"<'\w+>", "".join(source.word(it) for it in range(body, body + 3))):
        owner, body = f"{name}<'_>", source.find(body, "{", ";", "(")
    end = source.close(body) if source.word(body) == "{" else body
    if source.word(end) not in ("}", ";") or source.tokens[end + 1].kind != "space":
        source.refuse(item, "an error of another form")
    return name, owner, body, end


def one_text(source, at, item, body, end):
    """Returns what writes the text of a type that has one. A struct has its fields in it."""
    text, _ = note(source, at)
    names = re.findall(r"^    (?:pub(?:\([^)]*\))? )?(\w+):", source.part(body, end), re.M) if source.word(item) == "struct" else []
    return f"        let Self {{ {', '.join(names)} }} = self;\n" * bool(names) + f"        write!(f, {text})"


def note(source, at):
    """Returns what `#[error(..)]` at `at` says, and the number of the token behind it."""
    bracket = source.match(at, "#[error")
    text = source.part(bracket + 1, source.close(bracket)).strip() if bracket else ""
    if not re.fullmatch(r'transparent|"([^"\\]|\\.)*"(, self\.\w+\(\))?', text) or "{{" in text or "}}" in text:
        source.refuse(at, "an error's text of another form")
    return text, source.after(source.after(source.close(bracket)))


def variants(source, name, at, end):
    """Returns the arms that write the texts of the variants, and the impls of `From`."""
    arms = froms = ""
    while at < end:
        text, at = note(source, at)
        variant, at, pattern = source.word(at), source.after(at), ""
        if source.word(at) == "(":
            pattern = "(field)" if text == "transparent" or "{0" in text else "(_)"
            froms += from_field(source, name, variant, at)
            at = source.after(source.close(at))
        if source.word(at) != ",":
            source.refuse(at, "a variant of another form")
        text = '"{0}"' if text == "transparent" else text
        arms += f"            Self::{variant}{pattern} => write!(f, {text.replace('{0', '{field')}),\n"
        at = source.after(at)
    return arms, froms


def from_field(source, name, variant, at):
    """Returns `From` for a field with `#[from]`. With `#[from(alloc)]` it is also for what an allocation did not take."""
    form = re.fullmatch(r"(#\[from(\(alloc\))?\] )?([\w<>&' ]+)", source.inside(at))
    if not form:
        source.refuse(at, "fields of another form")
    words = {"name": name, "variant": variant}
    text = FROM.format(of="", type=form[3], field="field", value="field", **words) if form[1] else ""
    failed = "crate::rstd::alloc::AllocFailed<T>"
    return text + FROM.format(of="<T>", type=failed, field="_", value=form[3], **words) if form[2] else text
