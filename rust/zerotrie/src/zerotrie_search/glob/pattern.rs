// Made from crates/zerotrie_search/src/glob/pattern.rt by rust/make: edit that.
//! The items of a pattern, read one by one from its text.

const ANY: u32 = b'?' as u32;

const CARET: u32 = b'^' as u32;

const CLOSE: u32 = b']' as u32;

const COMMA: u32 = b',' as u32;

const DASH: u32 = b'-' as u32;

const END: u32 = b'}' as u32;

const ESCAPE: u32 = b'\\' as u32;

const GROUP: u32 = b'{' as u32;

const MANY: u32 = b'*' as u32;

const NOT: u32 = b'!' as u32;

const OPEN: u32 = b'[' as u32;

/// A text of letters.
#[derive(Clone, Copy, Debug)]
pub(in crate::made::zerotrie_search) enum Text<'p> {
    /// Each byte is a letter.
    Bytes(&'p [u8]),
    /// Each character is a letter.
    Chars(&'p str),
}

/// Returns the first character of a text, and what is left after it.
fn first_char(text: &str) -> Option<(u32, &str)> {
    let mut left = text.chars();
    let first = left.next()?;
    Some((u32::from(first), left.as_str()))
}

impl<'p> Text<'p> {
    /// Returns the first letter, and what is left after it.
    pub(in crate::made::zerotrie_search) fn first(self) -> Option<(u32, Text<'p>)> {
        match self {
            Text::Bytes(bytes) => {
                let (first, rest) = bytes.split_first()?;
                Some((u32::from(*first), Text::Bytes(rest)))
            }
            Text::Chars(text) => {
                let (first, rest) = first_char(text)?;
                Some((first, Text::Chars(rest)))
            }
        }
    }
}

/// Returns an ASCII letter in lower case, and another letter as it is.
fn lower(letter: u32) -> u32 {
    if 65 <= letter && letter < 91 {
        letter + 32
    } else {
        letter
    }
}

/// Returns an ASCII letter in upper case, and another letter as it is.
fn upper(letter: u32) -> u32 {
    if 97 <= letter && letter < 123 {
        letter - 32
    } else {
        letter
    }
}

/// Returns a letter in its two cases, or twice if its case counts.
pub(in crate::made::zerotrie_search) fn cases(any_case: bool, letter: u32) -> (u32, u32) {
    if any_case {
        (lower(letter), upper(letter))
    } else {
        (letter, letter)
    }
}

/// Returns whether a letter has one of these cases.
fn is_one(letter: u32, cases: (u32, u32)) -> bool {
    letter == cases.0 || letter == cases.1
}

/// Returns whether one of the cases of a letter is in a range.
fn has_case(from: u32, to: u32, cases: (u32, u32)) -> bool {
    (from <= cases.0 && cases.0 <= to) || (from <= cases.1 && cases.1 <= to)
}

/// What an item of a pattern is.
#[derive(Clone, Copy, Debug)]
pub(in crate::made::zerotrie_search) enum Role {
    /// One letter.
    Letter,
    /// Any number of letters.
    Many,
    /// The beginning of a group.
    Group,
    /// What separates two alternatives of a group.
    Comma,
    /// The end of a group.
    End,
}

impl Role {
    /// Returns whether what is behind an item with this role is in a group. `in_group` says whether the
    /// item is.
    pub(in crate::made::zerotrie_search) fn stays_in(self, in_group: bool) -> bool {
        match self {
            Role::Group => true,
            Role::End => false,
            Role::Many | Role::Comma | Role::Letter => in_group,
        }
    }
}

/// An item of a pattern, beside a letter.
#[derive(Clone, Copy, Debug)]
pub(in crate::made::zerotrie_search) struct Item {
    /// What it is.
    pub(in crate::made::zerotrie_search) role: Role,
    /// It takes the letter.
    pub(in crate::made::zerotrie_search) takes: bool,
}

/// Returns the first letter of a class with whether it is escaped, and what is left after it, or
/// `None` if the class ends here.
fn class_letter(text: Text<'_>) -> Option<((bool, u32), Text<'_>)> {
    let (first, rest) = text.first()?;
    if first == CLOSE {
        return None;
    }
    if first != ESCAPE {
        return Some(((false, first), rest));
    }
    let (escaped, rest) = rest.first()?;
    Some(((true, escaped), rest))
}

/// Returns the last letter of a range whose first letter is `from`, and what is left of the class
/// after it. If no range continues here, that is the first letter itself.
fn range_end(from: u32, text: Text<'_>) -> (u32, Text<'_>) {
    let Some(((escaped, dash), after)) = class_letter(text) else {
        return (from, text);
    };
    if escaped {
        return (from, text);
    }
    if dash != DASH {
        return (from, text);
    }
    match class_letter(after) {
        Some(((_escaped, to), rest)) => (to, rest),
        None => (from, text),
    }
}

/// Returns whether a class has a case of the letter, and what is left after its closing bracket, or `None` if
/// it has none, or a range without letters.
fn class_takes(text: Text<'_>, letter: (u32, u32)) -> Option<(bool, Text<'_>)> {
    let mut left = text;
    let mut found = false;
    while let Some(((_escaped, from), rest)) = class_letter(left) {
        let (to, more) = range_end(from, rest);
        if to < from {
            return None;
        }
        found = found | has_case(from, to, letter);
        left = more;
    }
    let (close, rest) = left.first()?;
    (close == CLOSE).then_some((found, rest))
}

/// Returns a class beside the letter, and what is left of the pattern after it.
fn class_item(text: Text<'_>, negated: bool, letter: (u32, u32)) -> Option<(Item, Text<'_>)> {
    let _first = class_letter(text)?;
    let (has, rest) = class_takes(text, letter)?;
    let item = Item {
        role: Role::Letter,
        takes: has != negated,
    };
    Some((item, rest))
}

/// Returns the class behind an opening bracket, beside the letter, and what is left of the pattern
/// after it.
fn opened(text: Text<'_>, letter: (u32, u32)) -> Option<(Item, Text<'_>)> {
    let (first, rest) = text.first()?;
    if first == NOT || first == CARET {
        class_item(rest, true, letter)
    } else {
        class_item(text, false, letter)
    }
}

/// Returns an item that is one letter, beside a letter with these cases.
fn one(letter: u32, cases: (u32, u32)) -> Item {
    Item {
        role: Role::Letter,
        takes: is_one(letter, cases),
    }
}

/// Returns the item that a letter is in a group or outside of one, if it is neither a backslash nor an
/// opening bracket, beside a letter with these cases.
fn item_of(first: u32, in_group: bool, letter: (u32, u32)) -> Option<Item> {
    let (role, takes) = match first {
        MANY => (Role::Many, true),
        ANY => (Role::Letter, true),
        GROUP => {
            if in_group {
                return None;
            }
            (Role::Group, false)
        }
        END => {
            if !in_group {
                return None;
            }
            (Role::End, false)
        }
        COMMA if in_group => (Role::Comma, false),
        _ => return Some(one(first, letter)),
    };
    Some(Item { role, takes })
}

/// Returns the first item of a pattern, or of what is left of it in a group, beside a letter with these
/// cases, and what is left after it.
pub(in crate::made::zerotrie_search) fn first_item(
    pattern: Text<'_>,
    in_group: bool,
    letter: (u32, u32),
) -> Option<(Item, Text<'_>)> {
    let (first, rest) = pattern.first()?;
    if first == ESCAPE {
        let (escaped, rest) = rest.first()?;
        return Some((one(escaped, letter), rest));
    }
    if first == OPEN {
        return opened(rest, letter);
    }
    let item = item_of(first, in_group, letter)?;
    Some((item, rest))
}
