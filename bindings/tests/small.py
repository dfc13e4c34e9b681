"""That a program which only looks up links little of the library, and nothing that takes memory.
Argument: the program.
"""

import subprocess
import sys

symbols = subprocess.run(
    ["nm", "-S", "--defined-only", sys.argv[1]], capture_output=True, text=True, check=True
).stdout
undefined = subprocess.run(
    ["nm", "-u", sys.argv[1]], capture_output=True, text=True, check=True
).stdout
assert not any(
    f" {name}" in undefined for name in ("malloc", "realloc", "free", "abort")
), undefined
text = int(
    subprocess.run(["size", sys.argv[1]], capture_output=True, text=True, check=True)
    .stdout.splitlines()[1]
    .split()[0]
)
assert text <= 20 * 1024, text
print(f"small: {text} bytes of text with the C start-up, and no allocator")
