"""What plain Rust says of a type besides: that it may get more cases or fields, which our own packages need not expect, and that it can be
cloned, which Rattle's listings are not, as a clone allocates.
"""
import re

from tokens import Refused

EXHAUSTIVE_INSIDE = '#[cfg_attr(not(feature = "__internal"), non_exhaustive)]'
SAYS = {
    EXHAUSTIVE_INSIDE: """AnyAutomaton AsciiProbeResult ByteProbeResult Change FaultCause Fault GlobError JsonError LoadError RecordError
        Refusal Rule RuleError SealError SearchBy Selection TagError TrieKind WordError ZeroIndexBuildError ZeroTrieBuildError""",
    "#[derive(Clone)]": """Combined Diff Input Merge OpenBranches SortedSlice ZeroTrieNearest ZeroTrieSearch ZeroTrieSorted
        ZeroTrieStream""",
}


def more(texts):
    """Returns the texts with what is said of each type. Each must be in one of them."""
    for attribute, names in SAYS.items():
        for name in names.split():
            head = re.compile(rf"^((?:pub(?:\([^)]*\))? )?(?:enum|struct) {name}\b)", re.M)
            places = [place for place, text in texts.items() if head.search(text)]
            if not places:
                raise Refused(f"no type {name}")
            for place in places:
                texts[place] = head.sub(rf"{attribute}\n\1", texts[place])
    return texts
