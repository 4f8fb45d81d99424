//! What was read, as one plain value that both sides give: the published structure, and our records
//! by their counts.
use crate::outcomes::Counts;
use crate::probe::unpacked;
use crate::records::Records;
use published::model::structure::Structure;
use published::model::types::{ResidueCategory, ResiduePosition};
use std::fmt;

/// Which residue of the structure one is: the chain's place, the sequence number and the insertion
/// code.
pub type Key = (usize, i32, Option<char>);

#[derive(Debug, Clone, PartialEq, Eq, Hash)]
pub struct Residue {
    pub key: Key,
    pub name: String,
    /// The standard residue's code, 0 for none.
    pub code: u8,
    pub category: u8,
    pub position: u8,
}

#[derive(Debug, Clone, PartialEq, Eq, Hash)]
pub struct Atom {
    pub residue: Key,
    pub name: String,
    pub element: u8,
    /// The bits of the coordinates, so that -0.0 is not 0.0.
    pub position: [u64; 3],
}

/// Chains by their names, residues and atoms, each in the order of the structure.
#[derive(Debug, Clone, Default, PartialEq, Eq, Hash)]
pub struct Model {
    pub chains: Vec<String>,
    pub residues: Vec<Residue>,
    pub atoms: Vec<Atom>,
}

impl Model {
    pub fn of_published(structure: &Structure) -> Self {
        let mut model = Self::default();
        for (place, chain) in structure.iter_chains().enumerate() {
            model.chains.push(chain.id.to_string());
            for residue in chain.iter_residues() {
                let key = (place, residue.id, residue.insertion_code);
                model.residues.push(Residue {
                    key,
                    name: residue.name.to_string(),
                    code: residue
                        .standard_name
                        .map_or(0, |standard| standard as u8 + 1),
                    category: category_code(residue.category),
                    position: position_code(residue.position),
                });
                model.atoms.extend(residue.iter_atoms().map(|atom| Atom {
                    residue: key,
                    name: atom.name.to_string(),
                    element: atom.element as u8,
                    position: [atom.pos.x, atom.pos.y, atom.pos.z].map(f64::to_bits),
                }));
            }
        }
        model
    }

    pub fn of_records(records: &Records, counts: &Counts) -> Self {
        let chains = records.chains.filled(counts.chains).iter();
        let residue = |place: usize| Residue {
            key: key(records.residue_keys.filled(counts.residues)[place]),
            name: unpacked(records.residue_names.filled(counts.residues)[place]),
            code: records.residue_codes.filled(counts.residues)[place],
            category: records.residue_categories.filled(counts.residues)[place],
            position: records.residue_positions.filled(counts.residues)[place],
        };
        let atom = |place: usize| Atom {
            residue: key(records.atom_keys.filled(counts.atoms)[place]),
            name: unpacked(records.atom_names.filled(counts.atoms)[place]),
            element: records.elements.filled(counts.atoms)[place],
            position: records.positions.filled(counts.atoms)[place].map(f64::to_bits),
        };
        Self {
            chains: chains.map(|chain| unpacked(chain.name)).collect(),
            residues: (0..counts.residues as usize).map(residue).collect(),
            atoms: (0..counts.atoms as usize).map(atom).collect(),
        }
    }

    pub fn elements(&self) -> Vec<u8> {
        self.atoms.iter().map(|atom| atom.element).collect()
    }

    /// The same with other elements.
    pub fn with_elements(mut self, elements: &[u8]) -> Self {
        for (atom, &element) in self.atoms.iter_mut().zip(elements) {
            atom.element = element;
        }
        self
    }

    /// The first place where two models differ, in words.
    pub fn difference(&self, other: &Self) -> String {
        first_difference(&self.chains, &other.chains)
            .or_else(|| first_difference(&self.residues, &other.residues))
            .or_else(|| first_difference(&self.atoms, &other.atoms))
            .unwrap_or_else(|| "no difference".to_string())
    }
}

/// As the stored answers have it: a word and its fields to each record, numbers but for the names, which
/// follow their lengths, and for the bits of the coordinates.
impl fmt::Display for Model {
    fn fmt(&self, formatter: &mut fmt::Formatter<'_>) -> fmt::Result {
        for chain in &self.chains {
            write!(formatter, " chain {}:{chain}", chain.len())?;
        }
        for residue in &self.residues {
            let (key, name) = (shown(residue.key), &residue.name);
            write!(formatter, " residue {key} {}:{name}", name.len())?;
            let (code, category) = (residue.code, residue.category);
            write!(formatter, " {code} {category} {}", residue.position)?;
        }
        for atom in &self.atoms {
            let (key, name) = (shown(atom.residue), &atom.name);
            write!(
                formatter,
                " atom {key} {}:{name} {}",
                name.len(),
                atom.element
            )?;
            for bits in atom.position {
                write!(formatter, " {bits:016x}")?;
            }
        }
        Ok(())
    }
}

/// The chain's place, the sequence number moved up by 2^31, and the insertion code, 0 for none.
fn shown((place, sequence, code): Key) -> String {
    let moved = sequence.abs_diff(i32::MIN);
    format!("{place} {moved} {}", code.map_or(0, u32::from))
}

fn first_difference<T: PartialEq + std::fmt::Debug>(one: &[T], two: &[T]) -> Option<String> {
    let longest = one.len().max(two.len());
    let place = (0..longest).find(|&place| one.get(place) != two.get(place))?;
    let (one, two) = (one.get(place), two.get(place));
    Some(format!("at {place}: {one:?}, not {two:?}"))
}

fn category_code(category: ResidueCategory) -> u8 {
    match category {
        ResidueCategory::Standard => 1,
        ResidueCategory::Hetero => 2,
        ResidueCategory::Ion => 3,
    }
}

fn position_code(position: ResiduePosition) -> u8 {
    match position {
        ResiduePosition::None => 0,
        ResiduePosition::Internal => 1,
        ResiduePosition::NTerminal => 2,
        ResiduePosition::CTerminal => 3,
        ResiduePosition::FivePrime => 4,
        ResiduePosition::ThreePrime => 5,
    }
}

/// A packed key is the chain's place, the sequence number moved up by 2^31 in 32 bits, and the
/// insertion code in 8 bits, 0 for none.
fn key(packed: u64) -> Key {
    let place = (packed >> 40) as usize;
    let sequence = ((packed >> 8) as u32 ^ 1 << 31) as i32;
    let code = packed as u8;
    (place, sequence, (code != 0).then(|| char::from(code)))
}
