//! The greatest sizes that the intake takes.

/// How many bytes a text has at most.
pub const LONGEST_TEXT: usize = 16_777_216;
/// How many chains a model has at most.
pub const MOST_CHAINS: usize = 4_096;
/// How many residues a model has at most.
pub const MOST_RESIDUES: usize = 65_536;
/// How many atoms a model has at most.
pub const MOST_ATOMS: usize = 1_048_576;

/// How many bytes the shortest row has: seven columns of one byte, six blanks and the line's end.
pub(crate) const SHORTEST_ROW: usize = 14;
