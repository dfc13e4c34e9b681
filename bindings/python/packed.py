"""Packs the one package for `pip install .`, so that no other one is asked for. The library goes
along: a libzerotrie.so that lies in the package, or else where bindings/make leaves it or in the
folder ZEROTRIE_LIB, is installed in the package, which finds it there. If none is for this
platform, cargo builds one from the sources in plain Rust, which an sdist has in the folder rust,
and a line says so. The summary of a package says whether its library is proved, by the file ORIGIN
that bindings/make or rust/zerotrie_c/make left beside it, which has its checksum. The version is
that of the file VERSION, and goes into the module zerotrie._version. The
extension zerotrie/_fast.c, by which single look-ups are fast, is compiled and goes along if a C
compiler and Python.h are there; else the package does without. `pip install -e .` installs the way
to this folder alone: the library and the extension are those that bindings/make made, before or
after.

As a program, which bindings/make calls, it makes that module, and compiles the extension into the
folder that is its argument.
"""

import base64
import gzip
import hashlib
import io
import os
import pathlib
import re
import shlex
import subprocess
import sys
import sysconfig
import tarfile
import tempfile
import zipfile

HERE = pathlib.Path(__file__).resolve().parent
EXTENSION = "_fast.abi3.so"
LIBRARY = "zerotrie/libzerotrie.so"
#: The file beside a library: what the library is, and the checksums of the files that it is.
ORIGIN = "ORIGIN"
PROVED, PLAIN = "proved", "plain Rust"
#: What the summary says of a library.
SAID = {PROVED: "that is proved", PLAIN: "of plain Rust, made from proved sources and itself not proved"}
NOT_KNOWN = "of which it is not known whether it is proved"
#: The processors of a file in the format ELF, by their numbers.
PROCESSORS = {62: "linux-x86_64", 183: "linux-aarch64"}
#: What a wheel serves: with the extension each CPython from 3.9 on, and without it each Python.
WITH_EXTENSION, WITHOUT = "cp39-abi3", "py3-none"
METADATA = """Metadata-Version: 2.1
Name: zerotrie
Version: {version}
Summary: Maps from byte strings to numbers, read from flat bytes, by a library {of}
Keywords: trie,map,prefix,succinct
License: Unicode-3.0
License-File: LICENSE
Classifier: Development Status :: 4 - Beta
Classifier: Intended Audience :: Developers
Classifier: License :: OSI Approved
Classifier: Operating System :: POSIX :: Linux
Classifier: Programming Language :: C
Classifier: Programming Language :: Python :: 3
Classifier: Programming Language :: Python :: Implementation :: CPython
Classifier: Topic :: Software Development :: Libraries
Classifier: Typing :: Typed
Requires-Python: >=3.9
Description-Content-Type: text/markdown

{description}"""


def first_of(*paths, fits=lambda data: True):
    """The bytes of the first of these files that is there and fits. None if none is."""
    found = (path.read_bytes() for path in paths if path.exists())
    return next(filter(fits, found), None)


def read(*names):
    """These files of this folder, by their names."""
    return {name: (HERE / name).read_bytes() for name in names}


def beside(name, *places):
    """The bytes of a file that an sdist has in this folder, and a checkout at one of these places.
    """
    data = first_of(HERE / name, *places)
    if data is None:
        raise SystemExit(f"no {name}: take the whole of a checkout or of the sdist")
    return data


def version():
    return beside("VERSION", HERE.parent.parent / "VERSION").decode().strip()


def version_module():
    """The module by which the package knows its version."""
    return f'"""Made from the file VERSION."""\n\n__version__ = "{version()}"\n'.encode()


def name():
    return f"zerotrie-{version()}"


def page():
    """The page of all calls, without the links to files that are not on the page."""
    text = beside("PYTHON.md", HERE.parent.parent / "docs/PYTHON.md").decode()
    return re.sub(r"^#", "##", re.sub(r"\[([^]]*)\]\((?!https:)[^)]*\)", r"\1", text), flags=re.M)


def metadata(origin):
    description = (HERE / "README.md").read_text() + "\n" + page()
    of = SAID.get(origin, NOT_KNOWN)
    return METADATA.format(version=version(), of=of, description=description).encode()


def is_musl():
    return "musl" in (sysconfig.get_config_var("HOST_GNU_TYPE") or "")


def serves(library):
    """Whether a library is for this platform. A ready one is for Linux with glibc."""
    processor = PROCESSORS.get(int.from_bytes(library[18:20], "little"))
    return processor == sysconfig.get_platform() and not is_musl()


def sources():
    """The sources in plain Rust, by the names that the files have in an sdist."""
    top = HERE if (HERE / "rust").exists() else HERE.parent.parent
    folders = [top / "rust" / crate for crate in ("zerotrie", "zerotrie_c")]
    files = [
        folders[1] / "Cargo.lock",
        *(folders[0] / name for name in ("LICENSE", "README.md")),
        *(file for folder in folders for file in (folder / "Cargo.toml", *folder.rglob("src/**/*.rs"))),
    ]
    return {str(file.relative_to(top)): file for file in sorted(files)}


def built():
    """A library that cargo builds, which is the variable CARGO or on the way."""
    platform = sysconfig.get_platform()
    manifest = sources()["rust/zerotrie_c/Cargo.toml"]
    if not manifest.exists():
        raise SystemExit(f"no libzerotrie.so for {platform}: run bindings/make, or take an sdist")
    print(
        f"zerotrie has no ready library for {platform}. cargo builds one from plain Rust: it is "
        "made from the proved sources, and is not proved itself.",
        file=sys.stderr,
    )
    cargo = [*shlex.split(os.environ.get("CARGO") or "cargo"), "build", "--release", "--locked"]
    with tempfile.TemporaryDirectory() as room:
        command = [*cargo, "--quiet", "--manifest-path", str(manifest), "--target-dir", room]
        try:
            subprocess.run(command, check=True)
        except (OSError, subprocess.CalledProcessError) as error:
            raise SystemExit(f"{error}: to build the library, install Rust 1.85 or later") from error
        made = [*pathlib.Path(room).glob("**/release/*zerotrie_c.*")]
        return first_of(*(it for it in made if it.suffix in (".so", ".dylib", ".dll")))


def platforms(*binaries):
    """The platforms of a wheel with these files: manylinux2014 takes no symbol of glibc that is
    later than 2.17.
    """
    platform = sysconfig.get_platform()
    if platform not in PROCESSORS.values() or is_musl():
        return [platform.replace("-", "_").replace(".", "_")]
    newest = max(
        (int(found) for data in binaries for found in re.findall(rb"GLIBC_2\.(\d+)", data)),
        default=0,
    )
    processor = platform.partition("-")[2]
    return (
        [f"manylinux_2_17_{processor}", f"manylinux2014_{processor}"]
        if newest <= 17
        else [f"manylinux_2_{newest}_{processor}"]
    )


def digest(library):
    return hashlib.sha256(library).hexdigest()


def origin(library, folder):
    """What the file ORIGIN of a folder says the library is. None if there is no such file, or if it
    has the checksums of other files.
    """
    text = first_of(folder / ORIGIN) or b""
    what, *rows = text.decode(errors="replace").splitlines() or [""]
    named = {row.partition(" ")[0] for row in rows}
    return what if digest(library) in named else None


def ready():
    """The library that is there for this platform, if one is, and what it is."""
    made = pathlib.Path(os.environ.get("ZEROTRIE_LIB") or HERE.parent / "build")
    for place in (HERE / LIBRARY, made / "libzerotrie.so"):
        library = first_of(place, fits=serves)
        if library is not None:
            return library, origin(library, place.parent)
    return None, PLAIN


def package(library, what):
    """The package with the library, by the names of the files."""
    said = f"{what}\n{digest(library)}  libzerotrie.so\n".encode() if library and what else None
    modules = [
        str(path.relative_to(HERE))
        for path in sorted((HERE / "zerotrie").glob("*.py"))
        if path.name != "_version.py"
    ]
    return {
        **read(*modules, "zerotrie/py.typed"),
        "zerotrie/_version.py": version_module(),
        **({LIBRARY: library} if library else {}),
        **({f"zerotrie/{ORIGIN}": said} if said else {}),
    }


def extension(folder):
    """Compiles the extension into the folder, and answers its bytes. None, with the reason on
    standard error, if that can't be done. The variables CC and CFLAGS are heeded.
    """
    made = pathlib.Path(folder) / EXTENSION
    compiler = shlex.split(os.environ.get("CC") or "cc")
    flags = ["-std=c11", "-O2", "-fPIC", "-shared", *shlex.split(os.environ.get("CFLAGS", ""))]
    places = [
        f"-I{HERE}",
        f"-I{HERE.parent / 'c'}",
        "-isystem",
        sysconfig.get_config_var("INCLUDEPY") or "",
    ]
    if sys.implementation.name != "cpython" or "t" in sys.abiflags:
        why = "it is for CPython with its lock"
    else:
        try:
            done = subprocess.run(
                [*compiler, *flags, *places, str(HERE / "zerotrie/_fast.c"), "-o", str(made)],
                stdout=subprocess.DEVNULL,
                stderr=subprocess.PIPE,
                text=True,
                errors="replace",
            )
            why = done.stderr if done.returncode or not made.exists() else None
        except OSError as error:
            why = f"{error}\n"
    if why is None:
        return made.read_bytes()
    print(
        f"{why.rstrip()}\nzerotrie goes without its extension, and a single look-up takes "
            "some 2 us in place of 0.2. To have it, "
        "install a C compiler and Python's headers (as gcc and python3-dev) first.",
        file=sys.stderr,
    )
    return None


def licence():
    return beside("LICENSE", HERE.parent.parent / "LICENSE")


def wheel(directory, files, tag, platforms, what):
    """Writes the wheel of these files, and what its library is. Answers its name. The same files
    make the same bytes.
    """
    folder = f"{name()}.dist-info"
    files = {**files, f"{folder}/LICENSE": licence(), f"{folder}/METADATA": metadata(what)}
    tags = "".join(f"Tag: {tag}-{platform}\n" for platform in platforms)
    files[
        f"{folder}/WHEEL"
    ] = f"Wheel-Version: 1.0\nGenerator: packed\nRoot-Is-Purelib: false\n{tags}".encode()
    rows = []
    for path, data in files.items():
        sum_of = base64.urlsafe_b64encode(hashlib.sha256(data).digest()).rstrip(b"=").decode()
        rows.append(f"{path},sha256={sum_of},{len(data)}\n")
    files[f"{folder}/RECORD"] = "".join([*rows, f"{folder}/RECORD,,\n"]).encode()
    made = f"{name()}-{tag}-{'.'.join(platforms)}.whl"
    with zipfile.ZipFile(pathlib.Path(directory) / made, "w") as packed:
        for path, data in files.items():
            entry = zipfile.ZipInfo(path)
            entry.external_attr = 0o644 << 16
            entry.compress_type = zipfile.ZIP_DEFLATED
            packed.writestr(entry, data)
    return made


def build_sdist(sdist_directory, config_settings=None):
    library, what = ready()
    files = {
        **package(library, what),
        **{place: file.read_bytes() for place, file in sources().items()},
        **read("packed.py", "pyproject.toml", "README.md", "zerotrie/_fast.c"),
        "PKG-INFO": metadata(what),
        "LICENSE": licence(),
        "PYTHON.md": beside("PYTHON.md", HERE.parent.parent / "docs/PYTHON.md"),
        "VERSION": f"{version()}\n".encode(),
        "zerotrie.h": beside("zerotrie.h", HERE.parent / "c/zerotrie.h"),
    }
    made, stream = f"{name()}.tar.gz", io.BytesIO()
    with tarfile.open(fileobj=stream, mode="w", format=tarfile.PAX_FORMAT) as packed:
        for path, data in files.items():
            entry = tarfile.TarInfo(f"{name()}/{path}")
            entry.size = len(data)
            packed.addfile(entry, io.BytesIO(data))
    (pathlib.Path(sdist_directory) / made).write_bytes(gzip.compress(stream.getvalue(), mtime=0))
    return made


def build_wheel(wheel_directory, config_settings=None, metadata_directory=None):
    library, what = ready()
    if library is None:
        library = built()
    files, tag = package(library, what), WITHOUT
    with tempfile.TemporaryDirectory() as room:
        fast = extension(room)
    if fast is not None:
        files[f"zerotrie/{EXTENSION}"], tag = fast, WITH_EXTENSION
    return wheel(wheel_directory, files, tag, platforms(library, fast or b""), what)


def build_editable(wheel_directory, config_settings=None, metadata_directory=None):
    (HERE / "zerotrie/_version.py").write_bytes(version_module())
    # another library may come to be there at any time
    return wheel(wheel_directory, {"zerotrie.pth": f"{HERE}\n".encode()}, WITHOUT, ["any"], None)


if __name__ == "__main__":
    (HERE / "zerotrie/_version.py").write_bytes(version_module())
    extension(sys.argv[1])
