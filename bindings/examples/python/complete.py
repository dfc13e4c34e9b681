"""Completions of what was typed, which may have one mistake: a character that is missing, or one
too many, or another one.

    python3 complete.py
"""

import heapq
from operator import itemgetter

from zerotrie import StrTrie

WORDS = ["car", "cargo", "carp", "carpet", "carton", "dog", "zürich"]
TABLE = StrTrie.build({word: number for number, word in enumerate(WORDS)})


def completions(typed: str, most: int = 5) -> list[str]:
    """The words that begin with what was typed, and then those that do but for a mistake."""
    exact = list(TABLE.keys(typed))
    near = [word for word, _ in TABLE.fuzzy(typed, edits=1, beginnings=True)]
    return [*exact, *(word for word in near if word not in exact)][:most]


def best(typed: str, most: int = 2) -> list[tuple[str, int]]:
    """The words that begin with what was typed, those with the greatest values first."""
    return heapq.nlargest(most, TABLE.items(typed), key=itemgetter(1))


print(completions("carp"))  # ['carp', 'carpet', 'car', 'cargo', 'carton']
print(completions("crpe"), completions("zuri"))  # ['carpet'] ['zürich']
print(best("car"))  # [('carton', 4), ('carpet', 3)]
print(dict(TABLE.glob("c*o?")), dict(TABLE.range("d")))  # {'carton': 4} {'dog': 5, 'zürich': 6}
print(dict(TABLE - TABLE.keys("c")))  # {'dog': 5, 'zürich': 6}
