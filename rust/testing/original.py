"""Makes a package of the tests of the crate zerotrie, over the plain package. Arguments: the folder rust, the folder of the crate's
tests, whose files part*.rs are cut here into the crate's own files, and the folder of the package.

The files are taken as they are, but for the changes that this prints, each with its reason: with what needs another crate a test is left
out, and a stand-in is there for the crate litemap (testing/litemap).
"""
import pathlib
import re
import sys

RUST, TESTS, OUT = (pathlib.Path(it).resolve() for it in sys.argv[1:4])
MANIFEST = """[package]
name = "original"
version = "0.0.0"
edition = "2021"
[dependencies]
zerotrie = {{ path = "{rust}/zerotrie" }}
litemap = {{ path = "{rust}/testing/litemap" }}
[workspace]
"""
# what the crate's file of test data has
TEST_DATA = """
fn strings_to_litemap<'a>(strings: &[&'a str]) -> litemap::LiteMap<&'a [u8], usize> {
    strings.iter().enumerate().map(|(number, it)| (it.as_bytes(), number)).collect()
}
"""
CONVERSIONS = "#[allow(unused_imports)]\nuse litemap::{ConstBuilder, ToLiteMap};\n"
DATA = "it needs the crate's file of test data, which is not here"
OTHER_CRATES = r"itertools|rand|zerovec|writeable|postcard|serde|icu_\w+|yoke|databake|bincode|rmp_serde"


def parts():
    """The crate's files, by their names."""
    found = {}
    for file in sorted(TESTS.glob("part*.rs")):
        for name, text in re.findall(r"^// ===== (\S+).*\n((?:(?!// =====).*\n?)*)", file.read_text(), re.M):
            found[name] = text
    return found


def said(file, change, reason):
    print(f"  {file}: {change}: {reason}")


def end_of(text, at):
    """Returns the place behind the block that begins at the first brace from a place on."""
    depth = 0
    for place in range(text.index("{", at), len(text)):
        depth += {"{": 1, "}": -1}.get(text[place], 0)
        if depth == 0:
            return place + 1
    raise SystemExit("a block without an end")


def without(text, begin):
    """Returns a text without the block that begins so."""
    return text[: text.index(begin)] + text[end_of(text, text.index(begin)) :]


class File:
    """One of the crate's files, as it is changed."""

    def __init__(self, name, text):
        self.name, self.text = name, text

    def leave_out_test(self, test, reason):
        at = self.text.index(f"fn {test}(")
        begin = self.text.rindex("#[test]", 0, at)
        self.text = self.text[:begin] + self.text[end_of(self.text, at) :]
        said(self.name, f"the test {test} is left out", reason)

    def cut(self, pattern, what, reason):
        self.text, count = re.subn(pattern, "", self.text, flags=re.M | re.S)
        assert count, (self.name, pattern)
        said(self.name, f"{what} ({count})", reason)

    def write(self, place, front="", back=""):
        file = OUT / "tests" / place
        file.parent.mkdir(parents=True, exist_ok=True)
        file.write_text(f"#![allow(unused)]\n{front}{self.text}{back}")


def test_data(file):
    file.cut(r"^mod testdata \{\n.*?^\}\n|^use testdata::\w+;\n", "the module testdata", "its file is not here, and one function stands in")


def builder(file):
    test_data(file)
    file.leave_out_test("test_basic", DATA)
    # the file that was handed on ends in the middle of this test
    file.cut(r"^    let zhm: zerovec::ZeroMap.*", "the end of the last test, from `let zhm` on", "zerovec and postcard")
    file.text += "}\n"
    file.write("builder_test.rs", CONVERSIONS, TEST_DATA)


def ignore_case(file):
    test_data(file)
    file.write("ignorecase_test.rs", CONVERSIONS, TEST_DATA)


def dense(file):
    test_data(file)
    for test in ("test_locales_with_aux", "test_short_subtags"):
        file.leave_out_test(test, "it needs the crate's file of test data, itertools or rand")
    file.cut(r"^use (?:itertools|rand|zerovec)::[^\n]*\n|^use zerotrie::dense::ZeroAsciiDenseSparse2dTrieVarULE;\n", "uses", "itertools, rand and zerovec")
    file.cut(r"^#\[must_use\]\nfn check_encoding\(.*?^\}\n", "the function check_encoding", "zerovec")
    file.cut(r"^    let \w+ = check_encoding\([^\n]*?\);\n|^    assert_eq!\(byte_len, \d+\);\n", "calls of check_encoding, with the lengths that zerovec's form has", "zerovec")
    file.write("dense_test.rs")


def example(file):
    file.cut(r"^#!\[no_main\][^\n]*\n|^icu_benchmark_macros::instrument!\(\);\n", "two lines", "the macro of icu_benchmark_macros")
    file.write("example.rs", back="\n#[test]\nfn example() {\n    main();\n}\n")


def main():
    files = parts()
    taken = {
        "tests/builder_test.rs": builder,
        "tests/ignorecase_test.rs": ignore_case,
        "tests/dense_test.rs": dense,
        "examples/first_weekday_for_region.rs": example,
    }
    OUT.mkdir(parents=True, exist_ok=True)
    (OUT / "src").mkdir(exist_ok=True)
    (OUT / "src/lib.rs").write_text("")
    (OUT / "Cargo.toml").write_text(MANIFEST.format(rust=RUST))
    for name, text in files.items():
        if name in taken:
            taken[name](File(name, text))
        elif name.startswith("src/"):
            said(name, "left out", DATA if "testdata::" in text else "it tests private functions of the crate")
        else:
            said(name, "left out", "it needs " + ", ".join(sorted(set(re.findall(rf"\b({OTHER_CRATES})::", text)))))


main()
