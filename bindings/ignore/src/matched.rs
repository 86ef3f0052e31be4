/// What rules say of a path, with what decided.
#[derive(Clone, Debug)]
pub enum Match<T> {
    /// No rule matches the path.
    None,
    /// The rule that counts ignores the path.
    Ignore(T),
    /// The rule that counts whitelists the path.
    Whitelist(T),
}

impl<T> Match<T> {
    /// Whether no rule matches.
    pub fn is_none(&self) -> bool {
        matches!(self, Match::None)
    }

    /// Whether the path is ignored.
    pub fn is_ignore(&self) -> bool {
        matches!(self, Match::Ignore(_))
    }

    /// Whether the path is whitelisted.
    pub fn is_whitelist(&self) -> bool {
        matches!(self, Match::Whitelist(_))
    }

    /// The match with `Ignore` and `Whitelist` exchanged.
    pub fn invert(self) -> Match<T> {
        match self {
            Match::Ignore(it) => Match::Whitelist(it),
            Match::Whitelist(it) => Match::Ignore(it),
            Match::None => Match::None,
        }
    }

    /// What decided, if a rule matches.
    pub fn inner(&self) -> Option<&T> {
        match self {
            Match::Ignore(it) | Match::Whitelist(it) => Some(it),
            Match::None => None,
        }
    }

    /// The same match, with what a function makes of what decided.
    pub fn map<U, F: FnOnce(T) -> U>(self, f: F) -> Match<U> {
        match self {
            Match::Ignore(it) => Match::Ignore(f(it)),
            Match::Whitelist(it) => Match::Whitelist(f(it)),
            Match::None => Match::None,
        }
    }

    /// This match, or the other where no rule matches.
    pub fn or(self, other: Self) -> Self {
        match self {
            Match::None => other,
            decided => decided,
        }
    }
}
