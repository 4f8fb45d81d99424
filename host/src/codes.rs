//! What the numbers in a residue's record stand for.

/// The standard residues, in the order of their codes, which count from 1.
pub const STANDARD_RESIDUES: [&str; 31] = [
    "ALA", "ARG", "ASN", "ASP", "CYS", "GLN", "GLU", "GLY", "HIS", "ILE", "LEU", "LYS", "MET",
    "PHE", "PRO", "SER", "THR", "TRP", "TYR", "VAL", "A", "C", "G", "U", "I", "DA", "DC", "DG",
    "DT", "DI", "HOH",
];

/// What kind of residue one is.
#[derive(Debug, Clone, Copy, PartialEq, Eq, Hash)]
#[non_exhaustive]
pub enum Category {
    /// Its name is known: it is one of the [standard residues](STANDARD_RESIDUES).
    Standard,
    /// Its name is not known, and it has more than one atom.
    Hetero,
    /// Its name is not known, and it has one atom.
    Ion,
}

impl Category {
    pub(crate) fn of_code(code: u8) -> Self {
        match code {
            1 => Self::Standard,
            2 => Self::Hetero,
            3 => Self::Ion,
            _ => unreachable!("a residue has no category {code}"),
        }
    }
}

/// Where a residue stands in its chain, of which only standard residues other than water count.
#[derive(Debug, Clone, Copy, PartialEq, Eq, Hash)]
#[non_exhaustive]
pub enum Position {
    /// It does not count.
    None,
    /// Between the first and the last.
    Internal,
    /// The first, an amino acid.
    NTerminal,
    /// The last, an amino acid, and not the first.
    CTerminal,
    /// The first, a nucleotide.
    FivePrime,
    /// The last, a nucleotide, and not the first.
    ThreePrime,
}

impl Position {
    pub(crate) fn of_code(code: u8) -> Self {
        match code {
            0 => Self::None,
            1 => Self::Internal,
            2 => Self::NTerminal,
            3 => Self::CTerminal,
            4 => Self::FivePrime,
            5 => Self::ThreePrime,
            _ => unreachable!("a residue has no position {code}"),
        }
    }
}

/// The standard residue's name, none for the code 0.
pub(crate) fn standard_of_code(code: u8) -> Option<&'static str> {
    let place = usize::from(code).checked_sub(1)?;
    Some(STANDARD_RESIDUES[place])
}

#[cfg(test)]
mod tests {
    use super::*;

    #[test]
    fn codes_count_from_one() {
        assert_eq!(standard_of_code(0), None);
        assert_eq!(standard_of_code(1), Some("ALA"));
        assert_eq!(standard_of_code(13), Some("MET"));
        assert_eq!(standard_of_code(21), Some("A"));
        assert_eq!(standard_of_code(31), Some("HOH"));
    }
}
