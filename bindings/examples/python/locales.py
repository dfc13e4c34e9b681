"""Locale fallback: the entry of the longest tag that a language tag begins with.

    python3 locales.py
"""

from typing import Optional

from zerotrie import StrTrie

PATTERNS = ["d.M.y", "M/d/y", "dd/MM/y", "y/M/d", "y年M月d日"]
TAGS = StrTrie.build({"de": 0, "en": 1, "en-GB": 2, "zh-Hant": 3, "zh": 4})


def pattern(tag: str) -> Optional[str]:
    """The pattern of dates for the tag. `at` makes a key end where a part of the tag does."""
    found = TAGS.longest_prefix(tag, at="-_")
    return None if found is None else PATTERNS[found[1]]


print(pattern("en-GB-oxendict"))  # dd/MM/y
print(pattern("de_AT"), pattern("en-US"))  # d.M.y M/d/y
print(pattern("zh-Hant-TW"), pattern("zh-Hans"))  # y/M/d y年M月d日
print(pattern("english"), TAGS.longest_prefix("english"))  # None ('en', 1)
