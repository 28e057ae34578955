//! How much of a comparison is run.

/// All of it, or a part.
#[derive(Debug, Clone, Copy, PartialEq, Eq)]
pub enum Scope {
    /// All of it.
    Full,
    /// Enough to find the planted faults.
    Brief,
}

impl Scope {
    /// The one or the other.
    pub fn choose<T>(self, full: T, brief: T) -> T {
        match self {
            Scope::Full => full,
            Scope::Brief => brief,
        }
    }
}
