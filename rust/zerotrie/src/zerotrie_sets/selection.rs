// Made from crates/zerotrie_sets/src/selection.rt by rust/make: edit that.
//! What is taken of any number of streams: which keys, and one value of each.

/// Which keys are taken of any number of streams.
#[derive(Clone, Copy, Debug, PartialEq, Eq)]
#[cfg_attr(not(feature = "__internal"), non_exhaustive)]
pub enum Selection {
    /// The keys of any stream.
    Union,
    /// The keys that every stream has.
    Intersection,
    /// The keys that the first stream has, and no other.
    Difference,
    /// The keys that an odd number of streams has. Of two streams these are the keys of one alone.
    SymmetricDifference,
}

/// Which value a key gets, if more than one stream has it.
#[derive(Clone, Copy, Debug, PartialEq, Eq)]
#[cfg_attr(not(feature = "__internal"), non_exhaustive)]
pub enum Rule {
    /// The value of the first stream that has the key.
    First,
    /// The value of the last stream that has the key.
    Last,
    /// The sum of the values.
    Sum,
    /// The least value.
    Min,
    /// The greatest value.
    Max,
    /// The value that all of them are. If they differ, the key is an error.
    Equal,
    /// None: the key is an error.
    Refuse,
}

/// Why the values of a key are not made one.
#[derive(Clone, Copy, Debug, PartialEq, Eq)]
#[cfg_attr(not(feature = "__internal"), non_exhaustive)]
pub enum RuleError {
    /// More than one stream has the key, and the rule is `Refuse`.
    SeveralValues,
    /// Streams have different values for the key, and the rule is `Equal`.
    DifferentValues,
    /// The sum of the values is 2^64 or more.
    SumTooLarge,
}

impl core::fmt::Display for RuleError {
    #[inline]
    fn fmt(&self, f: &mut core::fmt::Formatter<'_>) -> core::fmt::Result {
        match self {
            Self::SeveralValues => write!(f, "more than one stream has the key"),
            Self::DifferentValues => write!(f, "streams have different values for the key"),
            Self::SumTooLarge => write!(f, "the sum of the values is 2^64 or more"),
        }
    }
}

impl core::error::Error for RuleError {}

impl Selection {
    /// Returns whether a key is taken that `some` of `all` streams have, and the first one or not.
    pub(in crate::made::zerotrie_sets) fn takes(self, first: bool, some: usize, all: usize) -> bool {
        match self {
            Selection::Union => true,
            Selection::Intersection => some == all,
            Selection::Difference => first && some == 1,
            Selection::SymmetricDifference => some % 2 == 1,
        }
    }
}

impl Rule {
    /// Returns what is made of a value and the next one.
    fn one_of_two(self, value: usize, next: usize) -> Result<usize, RuleError> {
        match self {
            Rule::First => Ok(value),
            Rule::Last => Ok(next),
            Rule::Sum => value.checked_add(next).ok_or(RuleError::SumTooLarge),
            Rule::Min => Ok(value.min(next)),
            Rule::Max => Ok(value.max(next)),
            Rule::Equal if value == next => Ok(value),
            Rule::Equal => Err(RuleError::DifferentValues),
            Rule::Refuse => Err(RuleError::SeveralValues),
        }
    }

    /// Returns what is made of the values before, and the next one, if there is one.
    pub(in crate::made::zerotrie_sets) fn one_more(
        self,
        one: Option<usize>,
        next: Option<usize>,
    ) -> Result<Option<usize>, RuleError> {
        match (one, next) {
            (Some(value), Some(next)) => Ok(Some(self.one_of_two(value, next)?)),
            (Some(value), None) => Ok(Some(value)),
            (None, Some(next)) => Ok(Some(next)),
            (None, None) => Ok(None),
        }
    }
}
