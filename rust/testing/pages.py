"""Runs what the pages and the examples show of plain Rust, and compares what is printed with the remark on the line that prints.
Arguments: the top folder, and a folder to work in.
"""
import pathlib
import re
import subprocess
import sys

TOP, ROOM = (pathlib.Path(it).resolve() for it in sys.argv[1:3])
RUST = TOP / "rust"
PAGES = [TOP / "README.md", TOP / "docs/RUST.md"]
MANIFEST = '[package]\nname = "pages"\nversion = "0.0.0"\nedition = "2024"\n[dependencies]\nzerotrie = {{ path = "{}" }}\n[workspace]\n'
BUILD = '[build-dependencies]\nzerotrie = {{ path = "{}" }}\n[workspace]'
MAIN = "fn main() -> Result<(), Box<dyn std::error::Error>> {{\n{}Ok(())\n}}\n"


def remarks(text):
    return re.findall(r"print(?:ln)?!\(.*// (.*)", text)


def run(*command, where):
    done = subprocess.run(command, cwd=where, capture_output=True, text=True)
    if done.returncode:
        raise SystemExit(f"{' '.join(command)}\n{done.stderr}")
    return done.stdout.splitlines()


def compare(name, text, printed):
    if not remarks(text) or printed != remarks(text):
        raise SystemExit(f"{name}: prints {printed}, and shows {remarks(text)}")


def shown():
    """Runs the blocks of pages."""
    project = ROOM / "pages"
    (project / "src/bin").mkdir(parents=True)
    (project / "Cargo.toml").write_text(MANIFEST.format(RUST / "zerotrie"))
    blocks = [(page, it) for page in PAGES for it in re.findall(r"^```rs\n(.*?)^```", page.read_text(), re.M | re.S)]
    for number, (_, block) in enumerate(blocks):
        (project / f"src/bin/page{number}.rs").write_text(block if "fn main()" in block else MAIN.format(block))
    for number, (page, block) in enumerate(blocks):
        compare(page, block, run("cargo", "run", "--quiet", "--bin", f"page{number}", where=project))
    return len(blocks)


def table():
    """Runs the program whose files a page shows, each below its name."""
    files = dict(re.findall(r"^```rust\n// (\S+)\n(.*?)^```", PAGES[1].read_text(), re.M | re.S))
    project = ROOM / "files"
    (project / "src").mkdir(parents=True)
    (project / "Cargo.toml").write_text(MANIFEST.format(RUST / "zerotrie").replace("[workspace]", BUILD.format(RUST / "zerotrie")))
    for name, text in files.items():
        (project / name).write_text(text)
    compare(PAGES[1], files["src/main.rs"], run("cargo", "run", "--quiet", where=project))
    return len(files)


def examples():
    """Runs the programs of the package: the one over words twice, as the second time the file is there."""
    programs = sorted((RUST / "zerotrie/examples").glob("*.rs"))
    for program in programs:
        taken = [str(TOP / "bindings/examples/words.txt"), str(ROOM / "words.zt")] if program.stem == "words" else []
        for _ in range(2):
            printed = run("cargo", "run", "--quiet", "--example", program.stem, "--", *taken, where=RUST / "zerotrie")
            compare(program, program.read_text(), printed)
    return len(programs)


def program():
    """Runs the program for lines on its stored input."""
    crate = TOP / "crates/zerotrie_tool"
    command = ["cargo", "run", "--quiet", "--example", "zerotrie_tool"]
    done = subprocess.run(command, cwd=RUST / "zerotrie", input=(crate / "stdin").read_bytes(), capture_output=True)
    if done.returncode or done.stdout != (crate / "stdout").read_bytes():
        raise SystemExit(f"zerotrie_tool: status {done.returncode}\n{done.stderr.decode()}")


program()
print(f"{shown() + table()} blocks of pages, {examples()} examples and the program for lines print what they show")
