"""Tries what a release has, from /tried/dist, where there is no kit. Argument: the part to try. Prints a line for each thing that was
tried, `ok: ..` or `failed: ..`. `release/test` runs it in a Debian of its own: the parts `unpacked` and `installed` as a plain user."""

import glob
import os
import pathlib
import re
import shutil
import subprocess
import sys

DIST, HOME = pathlib.Path("/tried/dist"), pathlib.Path("/tried/home")
VERSION = re.search(r"zerotrie_(.*)_amd64\.deb", glob.glob(f"{DIST}/*.deb")[0])[1]
NAME = f"zerotrie-{VERSION}-linux-x86_64"
PRINTED = r"(?:print|cout).*?(?://|#) (.*)"
WARNINGS = ["-Wall", "-Wextra", "-Werror", "-pedantic"]


def run(*command, given="", status=0, **where):
    """What the command prints. It has to end with this status."""
    where["env"] = {**os.environ, **{key: str(value) for key, value in where.pop("env", {}).items()}}
    done = subprocess.run([str(word) for word in command], input=given, capture_output=True, text=True, **where)
    assert done.returncode == status, f"{command} ended with {done.returncode}: {done.stdout[-800:]} {done.stderr[-1500:]}"
    return done.stdout


def tried(name, what):
    try:
        what()
        print(f"ok: {name}", flush=True)
    except Exception as error:  # one more line that failed
        print(f"failed: {name}: {type(error).__name__}: {error}", flush=True)


def fragments():
    """What the page of the release shows of each language, and for Rust a page of its own."""
    pages = next(HOME.glob("*/share/doc/zerotrie"))
    text = (pages / "RUST.md").read_text() + (pages.parents[2] / "README.md").read_text()
    return dict(re.findall(r"```(c|cpp|rs|python)\n(.*?)```", text, re.S))


def wanted(body):
    return re.findall(PRINTED, body)


def source(language, body):
    if language == "c":
        return '#include <zerotrie.h>\n#include <stdio.h>\nint main(void) {\n' + body + "}\n"
    if language == "cpp":
        return '#include <zerotrie.hpp>\n#include <iostream>\n#include <map>\nint main() {\n' + body + "}\n"
    return f"fn main() -> Result<(), Box<dyn std::error::Error>> {{\n{body}Ok(())\n}}\n"


def folder(name):
    made = HOME / name
    shutil.rmtree(made, ignore_errors=True)
    made.mkdir()
    return made


def by_pkg_config(name, language, packages=None, static=False):
    """README's program, compiled and linked as pkg-config says."""
    room, body = folder(name), fragments()[language]
    (room / f"shown.{language}").write_text(source(language, body))
    where = {"PKG_CONFIG_PATH": packages} if packages else {}
    flags = run("pkg-config", *(["--static"] if static else []), "--cflags", "--libs", f"zerotrie = {VERSION}", env=where).strip()
    compiler = ["cc", "-std=c11"] if language == "c" else ["c++", "-std=c++17"]
    how = "-static" if static else f"-Wl,-rpath,{pathlib.Path(packages).parent}" if packages else ""
    line = " ".join([*compiler, *WARNINGS, f"shown.{language}", flags, "-o shown", how])
    run("sh", "-c", line, cwd=room)
    assert run("./shown", cwd=room).splitlines() == wanted(body)


def by_cmake(name, target, prefix=None, version="0.3", language="cpp"):
    room, body = folder(name), fragments()[language]
    (room / f"shown.{language}").write_text(source(language, body))
    (room / "CMakeLists.txt").write_text(f"cmake_minimum_required(VERSION 3.16)\nproject(shown C CXX)\nfind_package(zerotrie {version} REQUIRED CONFIG)\n"
                                         f"add_executable(shown shown.{language})\ntarget_compile_features(shown PRIVATE cxx_std_17)\n"
                                         f"target_link_libraries(shown PRIVATE zerotrie::{target})\n")
    run("cmake", "-S", room, "-B", room / "b", *([f"-DCMAKE_PREFIX_PATH={prefix}"] if prefix else []))
    run("cmake", "--build", room / "b")
    assert run(room / "b/shown").splitlines() == wanted(body)


def refuses_another_version(prefix):
    for version in ("0.2", "0.4", "0.3.9", "1"):
        try:
            by_cmake("other-version", "static", prefix, version)
        except AssertionError as error:
            assert "find_package" in str(error) or "compatible" in str(error), error
        else:
            raise AssertionError(f"find_package({version}) takes {VERSION}")


def reader(prefix):
    """The header alone, in C99 and in C++, over a file that the program made."""
    room = folder("reader")
    run(prefix / "bin/zerotrie", "build", "-", "-o", room / "names.trie", "--tagged", given="foo\t1\nbar\t2\nbazzoo\t3\n")
    (room / "read.c").write_text('''#include "zerotrie_read.h"
#include <inttypes.h>
#include <stdio.h>
static bool each(void *context, const uint8_t *key, size_t len, uint64_t value) {
    (void)context;
    printf("%.*s %" PRIu64 "\\n", (int)len, (const char *)key, value);
    return true;
}
int main(void) {
    uint8_t file[100], room[4096];
    FILE *from = fopen("names.trie", "rb");
    size_t len = from ? fread(file, 1, sizeof file, from) : 0;
    uint64_t value;
    return !(len && zerotrie_read_get(file[0], file + 1, len - 1, "bar", 3, &value) && value == 2)
        || zerotrie_read_list(file[0], file + 1, len - 1, "ba", 2, room, sizeof room, each, NULL) != ZEROTRIE_READ_DONE;
}
''')
    shutil.copy(DIST / "zerotrie_read.h", room)
    for line in ("cc -std=c99", "c++ -std=c++11 -x c++"):
        run("sh", "-c", f"{line} {' '.join(WARNINGS)} read.c -o read", cwd=room)
        assert run("./read", cwd=room) == "bar 2\nbazzoo 3\n"


# where cargo takes what the package's features need, without a network
REGISTRY = """[source.crates-io]
replace-with = "here"
[source.here]
directory = "/usr/share/cargo/registry"
"""


def crate():
    room, body = folder("rust"), fragments()["rs"]
    run("tar", "-xzf", f"{DIST}/zerotrie-{VERSION}.crate", "-C", room)
    (room / ".cargo").mkdir()
    (room / ".cargo/config.toml").write_text(REGISTRY)
    run("cargo", "new", "--quiet", "--vcs", "none", room / "shown")
    run("cargo", "add", "--quiet", "--offline", "--path", f"../zerotrie-{VERSION}", cwd=room / "shown")
    (room / "shown/src/main.rs").write_text(source("rs", body))
    assert run("cargo", "run", "--quiet", "--offline", cwd=room / "shown").splitlines() == wanted(body)


def crate_tests():
    run("cargo", "test", "--quiet", "--offline", "--features", "__internal,serde,json", cwd=HOME / f"rust/zerotrie-{VERSION}")


def by_cargo(place, which):
    """The crate, by the cargo and the compiler of a folder."""
    if not shutil.which("cargo", path=place):
        print(f"skipped: the crate{which}: rustup does not have it", flush=True)
        return
    path = os.environ["PATH"]
    os.environ["PATH"] = f"{place}:{path}"
    tried(f"the crate, by cargo add --path{which}", crate)
    tried(f"the crate's tests{which}", crate_tests)
    os.environ["PATH"] = path


def package(python, what, extension):
    """The wheel or the sdist, installed in a folder of its own, with no other package."""
    room, body = folder("python"), fragments()["python"]
    run(python, "-m", "venv", room / "venv")
    pip = [room / "venv/bin/python", "-m", "pip", "--disable-pip-version-check"]
    run(*pip, "install", "--quiet", "--no-index", glob.glob(f"{DIST}/{what}")[0])
    run(*pip, "check")
    code = f"import sys, zerotrie\nassert ('zerotrie._fast' in sys.modules) == {extension}, sys.modules\n{body}"
    assert run(room / "venv/bin/python", "-c", code, cwd=room).splitlines() == wanted(body)
    shown = run(*pip, "show", "zerotrie")
    assert f"Version: {VERSION}\n" in shown and "License: Unicode-3.0" in shown, shown
    own = run(room / "venv/bin/python", "-c", "import zerotrie, zerotrie._version; print(zerotrie._version.__version__)", cwd=room)
    assert own == f"{VERSION}\n", own


def pythons():
    found = {"Debian's": pathlib.Path("/usr/bin/python3")}
    of_pyenv = pathlib.Path(os.environ["PYTHONS"])
    for path in sorted(of_pyenv.glob("3.*/bin/python3")) if os.access(of_pyenv, os.R_OK) else []:
        version = tuple(map(int, path.parts[-3].split(".")[:2]))
        if version >= (3, 9):
            found[path.parts[-3]] = path
    return found


def program(path):
    room = folder("program")
    assert run(path, "--version") == f"zerotrie {VERSION}\n"
    for command in ("build", "get", "longest", "list", "verify", "stats", "inspect", "code"):
        assert f"Usage: zerotrie {command}" in run(path, command, "--help")
    run(path, "build", "-", "-o", "names.trie", cwd=room, given="foo\t1\nbar\t2\nbazzoo\t3\n")
    assert run(path, "get", "names.trie", "bar", "x", cwd=room, status=1) == "2\nnone\n"
    assert run(path, "list", "names.trie", "--prefix", "ba", cwd=room) == "bar\t2\nbazzoo\t3\n"
    assert run(path, "longest", "names.trie", "barn", cwd=room) == "bar\t2\n"


def manual(page):
    text = run("man", "-l", "--warnings", page, env={"MANWIDTH": 80, "MAN_KEEP_STDERR": 1})
    for word in ("zerotrie build", "--output", "EXIT STATUS", "longest", "--prefix", "MEMORY", VERSION):
        assert word in text, word


def bash(file):
    script = f"""source {file}
    words() {{ COMP_WORDS=("$@"); COMP_CWORD=$(($# - 1)); _zerotrie; echo "${{COMPREPLY[@]}}"; }}
    words zerotrie lo; words zerotrie build --ki; words zerotrie build --kind ''; words zerotrie list --fo"""
    assert run("bash", "-c", script) == "longest\n--kind\nauto simple ignore hash ext\n--format\n"


def zsh(file):
    run("zsh", "-n", file)
    script = f"""zmodload zsh/zpty; zpty z zsh -f -i; w() {{ zpty -w z "$1"; }}; out=
    seen() {{ repeat 300; do while zpty -r -t z more; do out+=$more; done; [[ $out == *"$1"* ]] && return; sleep 0.1; done; }}
    w 'PS1=; unsetopt beep; unset zle_bracketed_paste; LISTMAX=1000; fpath=({file.parent} $fpath); autoload -Uz compinit; compinit -u -D'
    w 'autoload -Uz {file.name}; compdef {file.name} zerotrie; zstyle ":completion:*" format ""; echo RE""ADY'
    seen READY; zpty -n -w z $'zerotrie lon\\t'; seen 'zerotrie longest'; zpty -n -w z $'\\x15zerotrie build --kind ign\\t'; seen '--kind ignore'
    print -r -- "$out"; zpty -d z"""
    said = run("zsh", "-f", "-c", script, cwd=folder("zsh"))
    assert "zerotrie longest" in said and "--kind ignore" in said, said[-600:]


def fish(file):
    run("fish", "--no-execute", file)
    for line, want in {"zerotrie lo": "longest", "zerotrie build --ki": "--kind", "zerotrie build --kind ig": "ignore", "zerotrie list --fo": "--format"}.items():
        said = run("fish", "--no-config", "-c", f"source {file}; complete -C '{line}'")
        assert want in [row.split("\t")[0] for row in said.splitlines()], (line, said)


def of_the_folder(prefix):
    """What an unpacked folder has, or an installed one."""
    tried("the program, and its help of each command", lambda: program(prefix / "bin/zerotrie"))
    tried("the reader in one header, in C99 and C++11", lambda: reader(prefix))
    share = prefix / "share"
    pages = [*share.glob("man/man1/zerotrie.1*")]
    tried("the man page, without a warning", lambda: manual(pages[0]))
    tried("completions for bash", lambda: bash(share / "bash-completion/completions/zerotrie"))
    tried("completions for zsh", lambda: zsh(next(share.glob("zsh/*/_zerotrie"))))
    tried("completions for fish", lambda: fish(share / "fish/vendor_completions.d/zerotrie.fish"))


def no_kit():
    assert shutil.which("rt") is None and not glob.glob("/opt/rattle/*") and os.getuid() != 0


def as_printed(prefix):
    """The lines of README, section by section, in the folder of the archive, beside which the wheel lies."""
    page = (prefix / "README.md").read_text()
    for wheel in glob.glob(f"{DIST}/*_x86_64.whl"):
        shutil.copy(wheel, prefix)
    for language, fence, prints in (("C", "c", ["crp: carp carpet"]), ("C++", "cpp", ["crp: carp carpet"]), ("Python", "python", None)):
        section = re.search(rf"^## {re.escape(language)}\n(.*?)(?=^## |\Z)", page, re.S | re.M)[1]
        body = re.search(rf"```{fence}\n(.*?)```", section, re.S)
        (prefix / "program.py").write_text(body[1])
        lines = re.findall(r"^    (.*)$", section.replace(body[0], ""), re.M)
        printed = run("sh", "-eu", "-c", "\n".join(lines), cwd=prefix).splitlines()
        wants = prints or wanted(body[1])
        assert len(lines) == 3 and printed[-len(wants):] == wants, (lines, printed)


def unpacked():
    tried("no kit is here, and this is a plain user", no_kit)
    tried("SHA256SUMS", lambda: run("sha256sum", "-c", "SHA256SUMS", cwd=DIST))
    run("tar", "-xzf", f"{DIST}/{NAME}.tar.gz", "-C", HOME)
    prefix = HOME / NAME
    packages = prefix / "lib/pkgconfig"
    tried("README's lines as they are printed", lambda: as_printed(prefix))
    tried("C by pkg-config", lambda: by_pkg_config("c", "c", packages))
    tried("C by pkg-config --static", lambda: by_pkg_config("c-static", "c", packages, static=True))
    tried("C++ by pkg-config", lambda: by_pkg_config("cpp", "cpp", packages))
    tried("C by find_package, static", lambda: by_cmake("cmake-c", "static", prefix, language="c"))
    tried("C++ by find_package, static", lambda: by_cmake("cmake-static", "static", prefix))
    tried("C++ by find_package, shared", lambda: by_cmake("cmake-shared", "shared", prefix))
    tried("C++ by find_package, as CMake chooses", lambda: by_cmake("cmake", "zerotrie", prefix, VERSION))
    tried("find_package refuses another version", lambda: refuses_another_version(prefix))
    of_the_folder(prefix)
    by_cargo("/tried/rust/bin", "")
    by_cargo("/tried/oldest/bin", ", by the oldest Rust that it is for")
    for name, python in pythons().items():
        tried(f"the wheel in {name} Python", lambda: package(python, "*_x86_64.whl", True))
        tried(f"the sdist in {name} Python", lambda: package(python, f"zerotrie-{VERSION}.tar.gz", True))
    if shutil.which("pypy3"):
        tried("the sdist in PyPy", lambda: package("/usr/bin/pypy3", f"zerotrie-{VERSION}.tar.gz", False))
    moved = HOME / "moved away"
    prefix.rename(moved)
    tried("C by pkg-config, the folder moved", lambda: by_pkg_config("c-moved", "c", f"{moved}/lib/pkgconfig", static=True))
    tried("C++ by find_package, the folder moved", lambda: by_cmake("cmake-moved", "static", moved))


def installed_anywhere():
    """What a Debian package gives on every Debian."""
    run("tar", "-xzf", f"{DIST}/{NAME}.tar.gz", "-C", HOME)
    tried("installed: C by pkg-config", lambda: by_pkg_config("c", "c"))
    tried("installed: C by pkg-config --static", lambda: by_pkg_config("c-static", "c", static=True))
    tried("installed: C++ by find_package, shared", lambda: by_cmake("cmake-shared", "shared"))


def installed():
    installed_anywhere()
    of_the_folder(pathlib.Path("/usr"))


def installed_on_older():
    """The same where glibc is older, and what is unpacked there."""
    installed_anywhere()
    tried("README's lines as they are printed", lambda: as_printed(HOME / NAME))
    tried("the program", lambda: program("/usr/bin/zerotrie"))
    tried("the reader in one header, in C99 and C++11", lambda: reader(pathlib.Path("/usr")))
    tried("the wheel in Debian's Python", lambda: package("/usr/bin/python3", "*_x86_64.whl", True))


def earlier(package):
    """The same package under an earlier version, with a file that the new one has not."""
    room = folder("earlier")
    run("dpkg-deb", "-R", package, room / "deb")
    control = room / "deb/DEBIAN/control"
    control.write_text(re.sub(r"(?m)^Version: .*", "Version: 0.2.9", control.read_text()))
    (room / "deb/usr/share/doc/zerotrie/GONE").write_text("a page of the version before\n")
    run("dpkg-deb", "-b", room / "deb", room / "earlier.deb")
    return room / "earlier.deb"


def upgrade(package):
    run("dpkg", "-i", earlier(package))
    assert "Version: 0.2.9" in run("dpkg", "-s", "zerotrie")
    run("dpkg", "-i", package)
    assert f"Version: {VERSION}" in run("dpkg", "-s", "zerotrie") and not os.path.exists("/usr/share/doc/zerotrie/GONE")


def install():
    package = glob.glob(f"{DIST}/*.deb")[0]
    tried("dpkg -i over an earlier version", lambda: upgrade(package))
    tried("dpkg --verify", lambda: run("dpkg", "--verify", "zerotrie"))


def remove():
    files = run("dpkg", "-L", "zerotrie").splitlines()
    tried("dpkg -r", lambda: run("dpkg", "-r", "zerotrie"))
    tried("nothing is left", lambda: run("test", "-z", " ".join(path for path in files if os.path.isfile(path))))


PARTS = {
    "unpacked": unpacked,
    "install": install,
    "installed-bookworm": installed,
    "installed-bullseye": installed_on_older,
    "remove": remove,
}
PARTS[sys.argv[1]]()
