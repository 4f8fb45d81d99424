//! Chains, residues and atoms of a model, each taken out of the records by value.
use crate::codes::{Category, Position};
use crate::name::Name;
use crate::symbols;

/// A chain of the model.
#[derive(Debug, Clone, Copy, PartialEq, Eq)]
#[non_exhaustive]
pub struct Chain {
    /// The name that the text gives; `?` where that is `.`.
    pub name: Name,
}

/// Which residue of the model one is. Keys are in the order of the residues.
#[derive(Debug, Clone, Copy, PartialEq, Eq, PartialOrd, Ord, Hash)]
pub struct Key {
    /// The chain's place in the model, from 0.
    pub chain: usize,
    /// 1 where the text has none of 32 bits.
    pub sequence: i32,
    /// None is before all others.
    pub insertion_code: Option<char>,
}

impl Key {
    /// A packed key is the chain's place, the sequence number moved up by 2^31 in 32 bits, and the
    /// insertion code in 8 bits, 0 for none.
    pub(crate) fn of_packed(packed: u64) -> Self {
        let code = packed as u8;
        Self {
            chain: (packed >> 40) as usize,
            sequence: ((packed >> 8) as u32 ^ 1 << 31) as i32,
            insertion_code: (code != 0).then_some(char::from(code)),
        }
    }
}

/// A residue of the model.
#[derive(Debug, Clone, Copy, PartialEq, Eq)]
#[non_exhaustive]
pub struct Residue {
    /// Its chain, its sequence number and its insertion code.
    pub key: Key,
    /// The canonical name of a standard residue; of others the name that the text gives.
    pub name: Name,
    /// Which of the [standard residues](crate::STANDARD_RESIDUES) it is, if one.
    pub standard: Option<&'static str>,
    /// Standard, hetero or ion.
    pub category: Category,
    /// Where it stands in its chain.
    pub position: Position,
}

/// An atom of the model.
#[derive(Debug, Clone, Copy, PartialEq)]
#[non_exhaustive]
pub struct Atom {
    /// The key of its residue.
    pub residue: Key,
    /// The name that the text gives.
    pub name: Name,
    /// The atomic number, 0 for unknown.
    pub element: u8,
    /// x, y and z of the row that was kept.
    pub position: [f64; 3],
    /// That of the row that was kept.
    pub occupancy: f64,
}

impl Atom {
    /// The element's symbol as it is written, `X` for unknown.
    pub fn symbol(&self) -> &'static str {
        symbols::of_element(self.element)
    }
}

#[cfg(test)]
mod tests {
    use super::*;

    fn packed(chain: u64, sequence: i64, code: u8) -> u64 {
        chain << 40 | ((sequence + (1 << 31)) as u64) << 8 | u64::from(code)
    }

    #[test]
    fn keys_hold_chain_sequence_and_insertion_code() {
        let greatest = Key {
            chain: 4095,
            sequence: i32::MAX,
            insertion_code: Some('~'),
        };
        assert_eq!(Key::of_packed(packed(4095, 2_147_483_647, b'~')), greatest);
        let least = Key {
            chain: 0,
            sequence: i32::MIN,
            insertion_code: None,
        };
        assert_eq!(Key::of_packed(0), least);
    }

    #[test]
    fn keys_are_in_the_order_of_the_residues() {
        let keys = [
            packed(0, -5, 0),
            packed(0, 7, 0),
            packed(0, 7, b'A'),
            packed(0, 8, 0),
            packed(1, -5, 0),
        ];
        assert!(keys.is_sorted());
        assert!(keys.map(Key::of_packed).is_sorted());
    }
}
