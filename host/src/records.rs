//! The records that are lent to a call: a slice of chain records, and for residues and atoms one
//! slice to a field.

#[derive(Clone)]
#[repr(C)]
pub struct ChainRecord {
    pub name: u64,
}

pub struct Records {
    pub chains: Box<[ChainRecord]>,
    pub residue_keys: Box<[u64]>,
    pub residue_names: Box<[u64]>,
    pub residue_codes: Box<[u8]>,
    pub residue_categories: Box<[u8]>,
    pub residue_positions: Box<[u8]>,
    pub atom_keys: Box<[u64]>,
    pub atom_names: Box<[u64]>,
    pub elements: Box<[u8]>,
    pub positions: Box<[[f64; 3]]>,
    pub occupancies: Box<[f64]>,
}

impl Records {
    pub fn new(chains: usize, residues: usize, atoms: usize) -> Self {
        Self {
            chains: vec![ChainRecord { name: 0 }; chains].into(),
            residue_keys: zeros(residues),
            residue_names: zeros(residues),
            residue_codes: zeros(residues),
            residue_categories: zeros(residues),
            residue_positions: zeros(residues),
            atom_keys: zeros(atoms),
            atom_names: zeros(atoms),
            elements: zeros(atoms),
            positions: vec![[0.0; 3]; atoms].into(),
            occupancies: vec![0.0; atoms].into(),
        }
    }
}

fn zeros<T: Copy + From<u8>>(count: usize) -> Box<[T]> {
    vec![T::from(0); count].into()
}
