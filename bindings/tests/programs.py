"""Runs the programs of bindings/examples in Python, and compares what they print with the
remark on the line that prints. Arguments: the folder bindings, and a folder to work in."""

import importlib.util
import os
import pathlib
import re
import subprocess
import sys

here, room = pathlib.Path(sys.argv[1]).resolve(), pathlib.Path(sys.argv[2])
examples = here / "examples"
python = {**os.environ, "PYTHONPATH": str(here / "python")}


def commands():
    """Each program, with its command and its environment."""
    for program in sorted((examples / "python").glob("*.py")):
        if program.stem == "cluster" and importlib.util.find_spec("distributed") is None:
            print("skipped: what needs python3-distributed")
        else:
            yield program, [sys.executable, str(program)], python


def run(command, environment):
    done = subprocess.run(command, check=True, capture_output=True, text=True, env=environment)
    return done.stdout.splitlines()


count = 0
for program, command, environment in commands():
    body, taken = program.read_text(), []
    assert body.count("\n") <= 40, program
    if program.stem == "words":
        taken = [str(examples / "words.txt"), str(room / f"words{count}.trie")]
    want = re.findall(r"print(?:ln!)?\(.*?(?://|#) (.*)", body)
    # twice, as the second time the file of the trie is there
    for _ in range(2):
        printed = run([*command, *taken], environment)
        assert want and printed == want, (program, printed, want)
    count += 1
assert count in (4, 5), count

print(f"programs: {count} examples in Python run")
