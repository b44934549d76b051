//! The limits of document 01, in one place.

/// Each limit is the greatest number accepted.
#[derive(Clone, Copy, Debug, PartialEq, Eq)]
pub struct Limits {
    /// Bytes of the whole input.
    pub input: usize,
    /// Bytes of the path text.
    pub text: usize,
    /// Bytes of a name.
    pub name: usize,
    /// Parentheses open at once.
    pub open: usize,
    /// Positions: names as written.
    pub positions: usize,
    /// Distinct names.
    pub names: usize,
    /// The highest terminal.
    pub terminal: usize,
}

pub const LIMITS: Limits = Limits {
    input: 65_536,
    text: 4_096,
    name: 16,
    open: 16,
    positions: 64,
    names: 32,
    terminal: 63,
};
