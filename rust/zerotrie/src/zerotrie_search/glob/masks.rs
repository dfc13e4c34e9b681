// Made from crates/zerotrie_search/src/glob/masks.rt by rust/make: edit that.
//! A pattern as masks: a bit for each item, and one for the end.

use super::GlobError;
use super::pattern::{Role, Text, cases, first_item};
use crate::zerotrie_search::WORD_LIMIT;

/// The masks of a pattern.
#[derive(Clone, Copy, Debug)]
pub(in crate::made::zerotrie_search) struct Masks {
    /// The items that take each letter below 256.
    takers: [u64; 256],
    /// The places that may be next after each item.
    followers: [u64; 64],
    /// The places that may be first.
    first: u64,
    /// The number of items, which is the place of the end.
    last: u32,
}

/// The places that may be next.
#[derive(Clone, Copy, Debug)]
struct Ahead {
    /// Those that may be first of all items from a place on.
    all: u64,
    /// Those that may be first of the other alternatives of its group.
    others: u64,
    /// Those that may be first behind the end of its group.
    behind: u64,
}

/// Returns the marks with one more.
fn marked(marks: u64, place: u32) -> u64 {
    marks | 1 << place
}

/// Returns the marks, with one more if it is to be.
fn marked_if(marks: u64, place: u32, is: bool) -> u64 {
    if is { marked(marks, place) } else { marks }
}

/// Returns the roles of the items of a pattern, and their number.
fn roles_of(pattern: Text<'_>) -> Result<([Role; 64], u32), GlobError> {
    let mut left = pattern;
    let mut in_group = false;
    let mut place: u32 = 0;
    let mut roles = [Role::Letter; 64];
    while let Some((item, rest)) = first_item(left, in_group, (0, 0)) {
        if place as usize == WORD_LIMIT {
            return Err(GlobError::TooLong);
        }
        roles[place as usize] = item.role;
        place += 1;
        in_group = item.role.stays_in(in_group);
        left = rest;
    }
    if in_group {
        return Err(GlobError::Malformed);
    }
    match left.first() {
        None => Ok((roles, place)),
        Some(_) => Err(GlobError::Malformed),
    }
}

/// Returns the marks of the items that take the letter.
pub(in crate::made::zerotrie_search) fn takers_of(pattern: Text<'_>, any_case: bool, letter: u32) -> u64 {
    let letters = cases(any_case, letter);
    let mut left = pattern;
    let mut in_group = false;
    let mut place: u32 = 0;
    let mut takers: u64 = 0;
    while let Some((item, rest)) = first_item(left, in_group, letters) {
        takers = marked_if(takers, place, item.takes);
        place += 1;
        in_group = item.role.stays_in(in_group);
        left = rest;
    }
    takers
}

/// Returns the marks of the items that take each letter below 256.
fn all_takers_of(pattern: Text<'_>, any_case: bool) -> [u64; 256] {
    let mut takers = [0; 256];
    let mut letter: usize = 0;
    while letter < 256 {
        takers[letter] = takers_of(pattern, any_case, letter as u32);
        letter += 1;
    }
    takers
}

/// Returns the places ahead from an item on, by its role and the places ahead behind it.
fn before(ahead: Ahead, role: Role, place: u32) -> Ahead {
    let Ahead {
        all,
        others,
        behind,
    } = ahead;
    match role {
        Role::Many => Ahead {
            all: marked(all, place),
            others,
            behind,
        },
        Role::Letter => Ahead {
            all: marked(0, place),
            others,
            behind,
        },
        Role::Group => Ahead {
            all: all | others,
            others,
            behind,
        },
        Role::Comma => Ahead {
            all: behind,
            others: all | others,
            behind,
        },
        Role::End => Ahead {
            all,
            others: 0,
            behind: all,
        },
    }
}

/// Returns the places that may be next after an item. A star leads to itself too.
fn after(role: Role, ahead: Ahead, from: Ahead) -> u64 {
    match role {
        Role::Many => from.all,
        Role::Group | Role::Comma | Role::End | Role::Letter => ahead.all,
    }
}

/// Returns the places that may be next after each item, and those that may be first.
fn followers_of(roles: [Role; 64], last: u32) -> ([u64; 64], u64) {
    let mut followers = [0; 64];
    let mut place = last;
    let mut ahead = Ahead {
        all: marked(0, last),
        others: 0,
        behind: 0,
    };
    while place > 0 {
        place -= 1;
        let role = roles[place as usize];
        let from = before(ahead, role, place);
        followers[place as usize] = after(role, ahead, from);
        ahead = from;
    }
    (followers, ahead.all)
}

impl Masks {
    /// Returns the masks of a pattern. With `any_case`, its letters are taken in both cases.
    pub(in crate::made::zerotrie_search) fn of(pattern: Text<'_>, any_case: bool) -> Result<Self, GlobError> {
        let (roles, last) = roles_of(pattern)?;
        let (followers, first) = followers_of(roles, last);
        Ok(Masks {
            takers: all_takers_of(pattern, any_case),
            followers,
            first,
            last,
        })
    }

    /// Returns the places before the first letter.
    pub(in crate::made::zerotrie_search) fn first(&self) -> u64 {
        self.first
    }

    /// Returns the marks of the items that take a letter below 256.
    #[inline(always)]
    pub(in crate::made::zerotrie_search) fn takers(&self, letter: u8) -> u64 {
        self.takers[letter as usize]
    }

    /// Returns the places after one more letter, which these items take.
    #[inline]
    pub(in crate::made::zerotrie_search) fn step(&self, marks: u64, takers: u64) -> u64 {
        let mut left = marks & takers;
        let mut next: u64 = 0;
        while left != 0 {
            let place = left.trailing_zeros();
            next |= self.followers[place as usize];
            left &= !(1 << place);
        }
        next
    }

    /// Returns whether the end is marked.
    #[inline]
    pub(in crate::made::zerotrie_search) fn is_match(&self, marks: u64) -> bool {
        (marks >> self.last) & 1 == 1
    }

    /// Returns whether nothing but the end is marked.
    #[inline]
    pub(in crate::made::zerotrie_search) fn is_over(&self, marks: u64) -> bool {
        marks & !(1 << self.last) == 0
    }
}
