//! The profiles of random sessions.

/// What a random session is rich in.
#[derive(Clone, Copy, PartialEq, Eq, Debug)]
pub enum Profile {
    /// Few processes, nodes and rows.
    Tiny,
    /// Many requests with items.
    Loans,
    /// Ends lent on and on.
    Nested,
    /// Subdirectories gone through, lent and registered.
    Directories,
    /// Chains of sources to depth 12.
    Deep,
    /// 1,024 rows and 128 requests.
    Full,
}

pub const PROFILES: [Profile; 6] = [
    Profile::Tiny,
    Profile::Loans,
    Profile::Nested,
    Profile::Directories,
    Profile::Deep,
    Profile::Full,
];

/// The profiles whose tables stay small.
pub const SMALL: [Profile; 5] = [
    Profile::Tiny,
    Profile::Loans,
    Profile::Nested,
    Profile::Directories,
    Profile::Deep,
];
