"""What plain Rust writes in another way, so that there is less to compile: std's sorts are not made anew for each kind of trie, builders
read slices of pairs, whose keys are whatever has bytes, and a build by a type is of its kind alone. A number is read by as many digits as always fit into `usize`. Each text
must be in its file once.
"""
import re

from tokens import Refused

# what few programs call: those that do compile it
SELDOM = ("zerotrie_all/", "zerotrie_reverse/", "zerotrie_index/builder.rs", "zerotrie_index/lent.rs")
# what is not inlined into its callers, of which few are called often: by the end of a place, functions
ONCE = {
    "zerotrie_core/cursor_place.rs": ("step",),
}
INLINED = r"#\[inline(?:\(always\))?\]\n( *(?:pub(?:\([^)]*\))? )?fn {}\b)"
IN_ORDER = "    let sorted = ByteSliceWithIndices::from_byte_slice(items.as_slice());\n    if {}!is_ordered::<K, _>(sorted) {{"
KEY = "impl{} TrieKey for {} {{\n    fn key_bytes(&self) -> &[u8] {{\n        {}\n    }}\n}}\n"
KEYS = [("", "&str", "self.as_bytes()"), ("", "String", "self.as_bytes()"), ("", "&[u8]", "&self[..]")]
KEYS += [("<const N: usize>", "&[u8; N]", "self.as_slice()"), ("", "Vec<u8>", "self.as_slice()")]
LESS = {
    # builders read the pairs of a user where they lie
    "zerotrie_base/store.rs": {
        "\n".join(KEY.format(*key) for key in KEYS): KEY.format("<K: AsRef<[u8]>>", "K", "self.as_ref()"),
    },
    "zerotrie_build/order.rs": {
        "fn are_folded<K: ZeroTrieWithOptions>(items: ByteSliceWithIndices<'_>)": "fn are_folded<'a, K: ZeroTrieWithOptions, I: IndexedItems<'a>>(items: I)",
        "are_in_order<K: ZeroTrieWithOptions>(\n    items: ByteSliceWithIndices<'_>,": "are_in_order<'a, K: ZeroTrieWithOptions, I: IndexedItems<'a>>(\n    items: I,",
        "are_folded::<K>(items)": "are_folded::<K, I>(items)",
        "items::{ByteSliceWithIndices, IndexedItems}": "items::IndexedItems",
    },
    # it names the types of kinds, which programs do not see
    "zerotrie_base/kind.rs": {"#[macro_export]": '#[cfg_attr(not(feature = "__internal"), doc(hidden))]\n#[macro_export]'},
    # users match a type that may get more cases, which the macro of the same version has
    "zerotrie_search/any.rs": {
        "            $crate::search::AnyAutomaton::SwapsChars($automaton) => $result,\n": """\
            $crate::search::AnyAutomaton::SwapsChars($automaton) => $result,
            #[allow(unreachable_patterns)]
            _ => ::core::unreachable!(),
""",
    },
    "zerotrie_sealed/reading.rs": {
        'write!(f, "the file does not begin as a sealed one")': 'write!(f, "the file does not begin as a sealed one: give its bytes, not its path")',
    },
    "zerotrie_base/byte_phf/mod.rs": {"use crate::rstd::alloc::{AllocError, Allocator, Global};": "use crate::rstd::alloc::{Allocator, Global};"},
    "zerotrie_build/windows.rs": {"    Literal(u8),": "    #[allow(dead_code)] // a proof reads it\n    Literal(u8),"},
    "zerotrie_build/sort.rs": {
        "prefixes.sort_unstable_by(|a, b| cmp_prefixes": "sort_by(&mut prefixes, &|a, b| cmp_prefixes",
        "items.sort_unstable_by(|a, b| cmp_to_sort::<K>(a.0, b.0))": "sort_by(&mut items, &|a, b| cmp_to_sort::<K>(a.0, b.0))",
        "use crate::rstd::cmp::Ordering;": "use crate::rstd::cmp::Ordering;\nuse crate::rstd::sort::sort_by;",
    },
    "zerotrie_build/blocks.rs": {
        "group.sort_unstable_by_key(|prefix| item_at(given, prefix.index).0.len());": """\
let len = |prefix: &KeyPrefix| item_at(given, prefix.index).0.len();
        sort_by(group, &|a, b| len(a).cmp(&len(b)));""",
        "prefixes[group.from..group.to].sort_unstable_by_key(|prefix| prefix.prefix);": "sort_by_prefix(&mut prefixes[group.from..group.to]);",
        "/// Sorts a group by the blocks": """\
/// Sorts prefixes by their blocks.
fn sort_by_prefix(prefixes: &mut [KeyPrefix]) {
    prefixes.sort_unstable_by_key(|prefix| prefix.prefix);
}

/// Sorts a group by the blocks""",
        "use crate::rstd::alloc::{AllocError, Allocator};": "use crate::rstd::alloc::{AllocError, Allocator};\nuse crate::rstd::sort::sort_by;",
    },
    "zerotrie_build/builder.rs": {
        IN_ORDER.format(""): "    if !is_ordered::<K, _>(items.as_slice()) {",
        IN_ORDER.format("K::IGNORE_CASE && "): "    if K::IGNORE_CASE && !is_ordered::<K, _>(items.as_slice()) {",
        """\
    let items = ByteSliceWithIndices::from_byte_slice(items.as_slice());
    build_ordered::<K, _, S, A>(alloc, spare, items, ascii)""": "    build_ordered::<K, _, S, A>(alloc, spare, items.as_slice(), ascii)",
        """\
fn build_ascending<K: ZeroTrieWithOptions, S: TrieBuilderStore, A: Allocator + Copy>(
    alloc: Global,
    spare: A,
    items: ByteSliceWithIndices<'_>,
) -> Result<S, ZeroTrieBuildError> {
    if are_in_order::<K>(items)? {""": """\
pub fn build_ascending<K: ZeroTrieWithOptions, Key: TrieKey, S: TrieBuilderStore, A: Allocator + Copy>(
    alloc: Global,
    spare: A,
    items: &[(Key, usize)],
) -> Result<S, ZeroTrieBuildError> {
    if are_in_order::<K, _>(items)? {""",
        """\
    match items {
        ByteSliceWithIndices::Bytes(items) => build_sorted::<K, &[u8], S, A>(alloc, spare, items),
        ByteSliceWithIndices::Str(items) => build_sorted::<K, &str, S, A>(alloc, spare, items),
    }
}
""": """\
    build_sorted::<K, Key, S, A>(alloc, spare, items)
}

/// Returns the items with their keys as bytes: a copy, if they are text.
fn with_bytes<'i, 'a: 'i>(
    items: ByteSliceWithIndices<'a>,
    copy: &'i mut Option<Vec<(&'a [u8], usize)>>,
) -> Result<&'i [(&'a [u8], usize)], AllocError> {
    match items {
        ByteSliceWithIndices::Bytes(items) => Ok(items),
        ByteSliceWithIndices::Str(_) => Ok(copy.insert(items.to_vec_u8(Global)?).as_slice()),
    }
}
""",
        """\
    by_kind!(
        options.kind(),
        build_ascending::<_, S, A>""": """\
    let mut copy = None;
    let items = with_bytes(items, &mut copy)?;
    by_kind!(
        options.kind(),
        build_ascending::<_, &[u8], S, A>""",
        """\
fn build_given<
""": """\
pub fn build_given<
""",
        """\
fn len_ordered<K: ZeroTrieWithOptions, A: Allocator + Copy>(
    alloc: A,
    items: ByteSliceWithIndices<'_>,
)""": """\
fn len_ordered<K: ZeroTrieWithOptions, Key: TrieKey, A: Allocator + Copy>(
    alloc: A,
    items: &[(Key, usize)],
)""",
        """\
    len_ordered::<K, A>(
        alloc,
        ByteSliceWithIndices::from_byte_slice(items.as_slice()),
    )
""": """\
    len_ordered::<K, _, A>(alloc, items.as_slice())
""",
        """\
fn len_ascending<K: ZeroTrieWithOptions, A: Allocator + Copy>(
    alloc: A,
    items: ByteSliceWithIndices<'_>,
) -> Result<usize, ZeroTrieBuildError> {
    if are_in_order::<K>(items)? {""": """\
pub fn len_ascending<K: ZeroTrieWithOptions, Key: TrieKey, A: Allocator + Copy>(
    alloc: A,
    items: &[(Key, usize)],
) -> Result<usize, ZeroTrieBuildError> {
    if are_in_order::<K, _>(items)? {""",
        "        return len_ordered::<K, A>(alloc, items);": "        return len_ordered::<K, Key, A>(alloc, items);",
        """\
    match items {
        ByteSliceWithIndices::Bytes(items) => len_sorted::<K, &[u8], A>(alloc, items),
        ByteSliceWithIndices::Str(items) => len_sorted::<K, &str, A>(alloc, items),
    }
""": """\
    len_sorted::<K, Key, A>(alloc, items)
""",
        "    by_kind!(options.kind(), len_ascending::<_, A>": """\
    let mut copy = None;
    let items = with_bytes(items, &mut copy)?;
    by_kind!(options.kind(), len_ascending::<_, &[u8], A>""",
    },
    "zerotrie_build/mod.rs": {
        "pub use builder::{ZeroTrieBuilder, build_slice, encoded_len};": """\
pub use builder::{ZeroTrieBuilder, build_ascending, build_given, build_slice, encoded_len, len_ascending};""",
    },
    "zerotrie_lines/items.rs": {
        "/// It reads at most eighteen digits,": "/// It reads at most `MOST_DIGITS` digits,",
        "while count < 18 &&": "while count < MOST_DIGITS &&",
        "/// Reads the digits that a text begins with": """\
/// As many nines as fit.
const MOST_DIGITS: usize = if usize::BITS == 64 { 18 } else { 9 };

/// Reads the digits that a text begins with""",
    },
    "zerotrie_any/routes.rs": {
        """\
    let builder: ZeroTrieBuilder<VecDeque<u8>> = ZeroTrieBuilder::from_sorted_tuple_slice(
        alloc,
        ByteSliceWithIndices::from_byte_slice(items),
        ZeroTrieBuilderOptions::of::<K>(),
    )?;
    Ok(builder.data.into_vec())
""": """\
    if !ByteSliceWithIndices::from_byte_slice(items).is_sorted() {
        return Err(ZeroTrieBuildError::Unsorted);
    }
    let data: VecDeque<u8> = build_ascending::<K, _, _, Global>(alloc, alloc, items)?;
    Ok(data.into_vec())
""",
        """\
    let builder: ZeroTrieBuilder<VecDeque<u8>> = ZeroTrieBuilder::from_tuple_slice(
        alloc,
        items,
        ZeroTrieBuilderOptions::of::<K>(),
    )?;
    Ok(builder.data.into_vec())
""": """\
    let data: VecDeque<u8> = build_given::<K, _, _, Global>(alloc, alloc, items)?;
    Ok(data.into_vec())
""",
        """\
    let builder: ZeroTrieBuilder<VecDeque<u8>> = ZeroTrieBuilder::from_bytes_iter(
        alloc,
        iter,
        ZeroTrieBuilderOptions::of::<K>(),
    )?;
    Ok(builder.data.into_vec())
""": """\
    let mut given: Vec<(Key, usize)> = iter.into_iter().collect_in(alloc)?;
    given.shrink_to_fit();
    let data: VecDeque<u8> = build_given::<K, _, _, Global>(alloc, alloc, given.as_slice())?;
    Ok(data.into_vec())
""",
        "use crate::zerotrie_build::{ByteSliceWithIndices, ZeroTrieBuilder};": """\
use crate::zerotrie_build::{ByteSliceWithIndices, build_ascending, build_given};""",
        "use crate::zerotrie_core::{TrieKey, ZeroTrieBuildError, ZeroTrieBuilderOptions, ZeroTrieWithOptions};": """\
use crate::zerotrie_core::{TrieKey, ZeroTrieBuildError, ZeroTrieWithOptions};""",
    },
}


seen = set()


def all_there():
    """Stops if a file that is named here is not there."""
    for end in [*LESS, *ONCE]:
        if not any(place.endswith(end) for place in seen):
            raise Refused(f"maker/less.py: no file {end}")


def less(place, text):
    """Returns the text of a made file, written in the other way."""
    seen.add(place)
    for old, new in LESS.get(place, {}).items():
        if text.count(old) != 1:
            raise Refused(f"{place}: this is not in it once: {old}")
        text = text.replace(old, new)
    for name in [name for end, names in ONCE.items() if place.endswith(end) for name in names]:
        text, count = re.subn(INLINED.format(name), r"#[inline(never)]\n\1", text)
        if count != 1:
            raise Refused(f"{place}: no function {name} that is inlined")
    if place.startswith(SELDOM):
        text = re.sub(r"(?<!#\[inline\(always\)\]\n)(?<!#\[inline\]\n)^( *)((?:pub(?:\([^)]*\))? )?fn )", r"\1#[inline]\n\1\2", text, flags=re.M)
    return text
