#!/usr/bin/env python3
"""Applies each crates/NAME/compile-fail/*.edit to a copy of the repository, and asks that it be refused with the error that it names."""
import pathlib
import shutil
import subprocess
import sys
import tempfile

root = pathlib.Path(__file__).resolve().parent.parent
failed = 0
for edit in sorted(root.glob("crates/*/compile-fail/*.edit")):
    crate = edit.parent.parent.name
    lines = dict(line.split(": ", 1) for line in edit.read_text().splitlines() if ": " in line)
    with tempfile.TemporaryDirectory() as folder:
        copy = pathlib.Path(folder) / "repository"
        shutil.copytree(root, copy, ignore=shutil.ignore_patterns("out", ".git"))
        source = copy / "crates" / crate / lines["file"]
        text = source.read_text()
        if text.count(lines["old"]) != 1:
            sys.exit(f"{edit.relative_to(root)}: the old text does not stand once in {lines['file']}")
        source.write_text(text.replace(lines["old"], lines["new"]))
        run = subprocess.run(["rt", "try", "--test"], cwd=copy / "crates" / crate, capture_output=True, text=True)
        refused = f"error[{lines['error']}]" in run.stdout + run.stderr
    print(f"{edit.relative_to(root)}: {'refused' if refused else 'NOT REFUSED'}")
    failed += not refused
sys.exit(1 if failed else 0)
