//! Shapes of models: how many atoms a residue has, and how many residues a chain. So each row has a
//! place in the order of the records.
use crate::records::Room;

/// Of each residue and of each chain but the last one.
#[derive(Debug, Clone, Copy, PartialEq, Eq)]
pub struct Shape {
    pub residues: usize,
    pub atoms: usize,
}

impl Shape {
    /// The chain of that place, the residue in the chain, and the atom in the residue.
    pub fn parts(&self, place: usize) -> [usize; 3] {
        let (residue, atom) = (place / self.atoms, place % self.atoms);
        [residue / self.residues, residue % self.residues, atom]
    }

    /// Just enough for so many places from the first on.
    pub fn room(&self, count: usize) -> Room {
        let residues = count.div_ceil(self.atoms);
        Room {
            chains: residues.div_ceil(self.residues),
            residues,
            atoms: count,
        }
    }
}
