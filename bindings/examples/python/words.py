"""Completion and the longest prefix over a list of words, one a line, in any order.

    python3 words.py ../words.txt words.trie

builds the trie of the list, whose values are the numbers of the lines, if its file is not there.
"""

import itertools
import pathlib
import sys

from zerotrie import StrTrie, ZeroTrieError

words, file = map(pathlib.Path, sys.argv[1:])
if not file.exists():
    lines = words.read_text(encoding="utf-8").split()
    try:
        StrTrie.build(zip(lines, range(len(lines)))).save(file)
    except ZeroTrieError as error:
        sys.exit(f"{words}, line {(error.index or 0) + 1}: {error}")

with StrTrie.open(file) as trie:
    # the first completions take no more time if there are thousands
    print(list(itertools.islice(trie.keys("car"), 3)))  # ['car', 'cargo', 'carp']
    print(trie.longest_prefix("carpetbaggers"))  # ('carpet', 3)
    print(trie.prefixes("carpetbaggers"))  # [('car', 0), ('carp', 2), ('carpet', 3)]
    print(trie["dog"], trie.get("dogs"), len(trie))  # 6 None 10
    print(list(trie.get_many(["cat", "cow", "dog"], missing=0)))  # [5, 0, 6]
