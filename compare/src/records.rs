//! The records that are lent to a reading: a slice of chain records, and for residues and atoms one
//! slice to a field. They are dirty beforehand, and a few entries behind each slice are watched,
//! which no reading has any business with.
use crate::outcomes::{Counts, Outcome};

/// How many records there are of each kind.
#[derive(Debug, Clone, Copy, PartialEq, Eq)]
pub struct Room {
    pub chains: usize,
    pub residues: usize,
    pub atoms: usize,
}

impl Room {
    /// As many records as a reading fills at most.
    pub const GREATEST: Self = Self {
        chains: 4_096,
        residues: 65_536,
        atoms: 1_048_576,
    };
    /// The records of the program and of the host call.
    pub const OF_THE_PROGRAM: Self = Self {
        chains: 64,
        residues: 512,
        atoms: 1_024,
    };
    /// More than the small texts need, and little to look through after each of them.
    pub const AMPLE: Self = Self {
        chains: 40,
        residues: 120,
        atoms: 200,
    };

    /// What the records take: a name to a chain; a key, a name and three codes to a residue; a key, a
    /// name, a code and four numbers to an atom.
    pub fn bytes(&self) -> u64 {
        (self.chains * 8 + self.residues * 19 + self.atoms * 49) as u64
    }

    /// Just enough for what was read.
    pub fn of_counts(counts: &Counts) -> Self {
        Self {
            chains: counts.chains as usize,
            residues: counts.residues as usize,
            atoms: counts.atoms as usize,
        }
    }
}

/// A record of the chain list.
#[derive(Debug, Clone, Copy)]
#[repr(C)]
pub struct Chain {
    pub name: u64,
}

/// What one slice holds for each record.
pub trait Entry: Copy {
    fn of_word(word: u64) -> Self;
    /// All bits, so that -0.0 is not 0.0.
    fn words(self) -> [u64; 3];
}

impl Entry for Chain {
    fn of_word(word: u64) -> Self {
        Self { name: word }
    }

    fn words(self) -> [u64; 3] {
        self.name.words()
    }
}

impl Entry for u8 {
    fn of_word(word: u64) -> Self {
        word as u8
    }

    fn words(self) -> [u64; 3] {
        [u64::from(self), 0, 0]
    }
}

impl Entry for u64 {
    fn of_word(word: u64) -> Self {
        word
    }

    fn words(self) -> [u64; 3] {
        [self, 0, 0]
    }
}

impl Entry for f64 {
    fn of_word(word: u64) -> Self {
        Self::from_bits(word)
    }

    fn words(self) -> [u64; 3] {
        [self.to_bits(), 0, 0]
    }
}

impl Entry for [f64; 3] {
    fn of_word(word: u64) -> Self {
        [f64::from_bits(word); 3]
    }

    fn words(self) -> [u64; 3] {
        self.map(f64::to_bits)
    }
}

/// A pattern that no reading writes: the name and the key have bytes above 126, the numbers are too
/// small and the codes too great.
const DIRT: u64 = 0xa5a5_a5a5_a5a5_a5a5;
/// How many entries behind the lent ones are watched.
const MARGIN: usize = 2;

/// The lent slice, and the entries behind it.
pub struct Lent<T> {
    entries: Vec<T>,
    room: usize,
}

impl<T: Entry> Lent<T> {
    fn new(room: usize) -> Self {
        let entries = vec![T::of_word(DIRT); room + MARGIN];
        Self { entries, room }
    }

    pub fn slice(&mut self) -> &mut [T] {
        &mut self.entries[..self.room]
    }

    pub fn filled(&self, count: u64) -> &[T] {
        &self.entries[..count as usize]
    }
}

/// What is done to a slice whatever it holds.
trait Slice {
    fn soil(&mut self);
    fn resize(&mut self, room: usize);
    /// Whether all is zero from the count to the end of the slice, and as it was behind that.
    fn is_clear_past(&self, count: usize) -> bool;
    fn is_untouched(&self) -> bool;
}

impl<T: Entry> Slice for Lent<T> {
    fn soil(&mut self) {
        self.entries.fill(T::of_word(DIRT));
    }

    fn resize(&mut self, room: usize) {
        *self = Self::new(room);
    }

    fn is_clear_past(&self, count: usize) -> bool {
        let (lent, behind) = self.entries.split_at(self.room);
        let dirt = T::of_word(DIRT).words();
        let Some(rest) = lent.get(count..) else {
            return false;
        };
        rest.iter().all(|entry| entry.words() == [0; 3])
            && behind.iter().all(|entry| entry.words() == dirt)
    }

    fn is_untouched(&self) -> bool {
        let dirt = T::of_word(DIRT).words();
        self.entries.iter().all(|entry| entry.words() == dirt)
    }
}

/// The fields, in the order in which they are lent.
#[derive(Debug, Clone, Copy, PartialEq, Eq)]
pub enum Field {
    Chains,
    ResidueKeys,
    ResidueNames,
    ResidueCodes,
    ResidueCategories,
    ResiduePositions,
    AtomKeys,
    AtomNames,
    Elements,
    Positions,
    Occupancies,
}

impl Field {
    pub const ALL: [Self; 11] = [
        Self::Chains,
        Self::ResidueKeys,
        Self::ResidueNames,
        Self::ResidueCodes,
        Self::ResidueCategories,
        Self::ResiduePositions,
        Self::AtomKeys,
        Self::AtomNames,
        Self::Elements,
        Self::Positions,
        Self::Occupancies,
    ];

    /// The number of its kind of record in the room.
    pub fn of_room(self, room: &mut Room) -> &mut usize {
        use Field::*;
        match self {
            Chains => &mut room.chains,
            ResidueKeys | ResidueNames | ResidueCodes | ResidueCategories | ResiduePositions => {
                &mut room.residues
            }
            AtomKeys | AtomNames | Elements | Positions | Occupancies => &mut room.atoms,
        }
    }
}

pub struct Records {
    pub chains: Lent<Chain>,
    pub residue_keys: Lent<u64>,
    pub residue_names: Lent<u64>,
    pub residue_codes: Lent<u8>,
    pub residue_categories: Lent<u8>,
    pub residue_positions: Lent<u8>,
    pub atom_keys: Lent<u64>,
    pub atom_names: Lent<u64>,
    pub elements: Lent<u8>,
    pub positions: Lent<[f64; 3]>,
    pub occupancies: Lent<f64>,
}

impl Records {
    pub fn new(room: Room) -> Self {
        Self {
            chains: Lent::new(room.chains),
            residue_keys: Lent::new(room.residues),
            residue_names: Lent::new(room.residues),
            residue_codes: Lent::new(room.residues),
            residue_categories: Lent::new(room.residues),
            residue_positions: Lent::new(room.residues),
            atom_keys: Lent::new(room.atoms),
            atom_names: Lent::new(room.atoms),
            elements: Lent::new(room.atoms),
            positions: Lent::new(room.atoms),
            occupancies: Lent::new(room.atoms),
        }
    }

    /// Gives one slice another length than the others of its kind have.
    pub fn resize(&mut self, field: Field, room: usize) {
        self.slices()[field as usize].resize(room);
    }

    /// What was there before a reading must not matter to it.
    pub fn soil(&mut self) {
        for slice in self.slices() {
            slice.soil();
        }
    }

    /// Whether all records past the counts are zero, and what is behind the lent ones as it was.
    pub fn are_clear_past(&mut self, outcome: &Outcome) -> bool {
        let mut filled = match outcome {
            Outcome::Read(counts) => Room::of_counts(counts),
            Outcome::Refused(_) => Room::of_counts(&Counts::default()),
        };
        let slices = Field::ALL.into_iter().zip(self.slices());
        let mut clear =
            slices.map(|(field, slice)| slice.is_clear_past(*field.of_room(&mut filled)));
        clear.all(|clear| clear)
    }

    /// Whether all records are as dirty as they were.
    pub fn are_untouched(&mut self) -> bool {
        self.slices().iter().all(|slice| slice.is_untouched())
    }

    /// In the order of the fields.
    fn slices(&mut self) -> [&mut dyn Slice; 11] {
        [
            &mut self.chains,
            &mut self.residue_keys,
            &mut self.residue_names,
            &mut self.residue_codes,
            &mut self.residue_categories,
            &mut self.residue_positions,
            &mut self.atom_keys,
            &mut self.atom_names,
            &mut self.elements,
            &mut self.positions,
            &mut self.occupancies,
        ]
    }
}
