"""Names of HTTP headers, found in either case, as a server that parses requests does it.

    python3 headers.py
"""

from typing import Optional

from zerotrie import IGNORE_CASE, StrTrie, ZeroTrieError

NAMES = ["accept", "accept-encoding", "cache-control", "content-type", "host"]
TABLE = StrTrie.build({name: number for number, name in enumerate(NAMES)}, IGNORE_CASE)


def canonical(name: str) -> Optional[str]:
    """The spelling of the table, or None if it does not have the name."""
    number = TABLE.get(name)
    return None if number is None else NAMES[number]


print(canonical("Content-TYPE"), canonical("hos"))  # content-type None
print("HOST" in TABLE, TABLE["Accept"])  # True 0
print(sorted(TABLE.keys("ACC")))  # ['accept', 'accept-encoding']
print(len(bytes(TABLE)))  # 54

# names that differ in case can't be told apart, and the error names the two
try:
    StrTrie.build({"host": 0, "Accept": 1, "accept-encoding": 2}, IGNORE_CASE)
except ZeroTrieError as error:
    print(error.key, error.index, error.other)  # Accept 1 2
