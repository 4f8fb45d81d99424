//! Records of any size for the call that is lent them, and the model that they hold afterwards.
use crate::call;
use crate::codes::{self, Category, Position};
use crate::limits::{MOST_ATOMS, MOST_CHAINS, MOST_RESIDUES, SHORTEST_ROW};
use crate::model::{Atom, Chain, Key, Residue};
use crate::name::Name;
use crate::records::Records;
use crate::refusal::Refusal;
use crate::report::{self, Report};
use std::fmt;
use std::ops::Range;

/// After a text is taken in, a room holds its model; before, and after a refusal, none.
pub struct Room {
    records: Records,
}

impl Room {
    /// Room for so many chains, residues and atoms, of which at most 4,096, 65,536 and 1,048,576
    /// are used.
    pub fn new(chains: usize, residues: usize, atoms: usize) -> Self {
        Self {
            records: Records::new(chains, residues, atoms),
        }
    }

    /// Room for all that the text may hold, within the greatest sizes: no row is shorter than 14
    /// bytes, and none brings more than one chain, one residue and one atom.
    ///
    /// Each call clears every record past the model, so that a room costs what it holds: the greatest
    /// one has 53 MB, which take a text of a few rows several milliseconds. Of this one that is a
    /// small part of the reading.
    pub fn for_text(text: &[u8]) -> Self {
        // The last row needs no line's end.
        let rows = text.len() / SHORTEST_ROW + 1;
        let at_most = |most: usize| rows.min(most);
        Self::new(
            at_most(MOST_CHAINS),
            at_most(MOST_RESIDUES),
            at_most(MOST_ATOMS),
        )
    }

    /// Takes in a text and writes it to the start of `out`. All other bytes of `out` stay as they
    /// were; after a refusal all of them do.
    pub fn intake(&mut self, text: &[u8], out: &mut [u8]) -> Result<Report, Refusal> {
        let mut result = [0; call::RESULT_BYTES];
        let answer = call::intake_lent(text, out, &mut result, &mut self.records);
        report::of_answer(answer, &result)
    }

    /// Takes in a text, and gives the whole text written, however long it is. Where the first output
    /// is too short, the refusal says how long it must be, and the text is taken in again.
    pub fn intake_whole(&mut self, text: &[u8]) -> Result<(Report, Vec<u8>), Refusal> {
        let mut out = vec![0; 2 * text.len() + 1024];
        let mut answer = self.intake(text, &mut out);
        if let Err(refusal) = answer
            && refusal.number == Refusal::OUTPUT_TOO_SHORT
        {
            out.resize(refusal.detail as usize, 0);
            answer = self.intake(text, &mut out);
        }
        let report = answer?;
        out.truncate(report.bytes_written);
        Ok((report, out))
    }

    /// The chains, in the order in which the text first names them.
    pub fn chains(&self) -> impl ExactSizeIterator<Item = Chain> {
        let chains = filled(&self.records.chains, |chain| chain.name).iter();
        chains.map(|chain| Chain {
            name: Name::of_packed(chain.name),
        })
    }

    /// The residues, by chain, sequence and insertion code.
    pub fn residues(&self) -> impl ExactSizeIterator<Item = Residue> {
        let records = &self.records;
        let names = filled(&records.residue_names, |&name| name)
            .iter()
            .enumerate();
        names.map(|(place, &name)| Residue {
            key: Key::of_packed(records.residue_keys[place]),
            name: Name::of_packed(name),
            standard: codes::standard_of_code(records.residue_codes[place]),
            category: Category::of_code(records.residue_categories[place]),
            position: Position::of_code(records.residue_positions[place]),
        })
    }

    /// The atoms, by residue and name.
    pub fn atoms(&self) -> impl ExactSizeIterator<Item = Atom> {
        self.atoms_at(0..self.atom_count())
    }

    /// The atoms of one residue of the model, by name. They are looked for by halves, since atoms
    /// stand in the order of their residues.
    pub fn atoms_of(&self, residue: &Residue) -> impl ExactSizeIterator<Item = Atom> {
        let keys = &self.records.atom_keys[..self.atom_count()];
        let first = keys.partition_point(|&key| Key::of_packed(key) < residue.key);
        let past = keys.partition_point(|&key| Key::of_packed(key) <= residue.key);
        self.atoms_at(first..past)
    }

    fn atom_count(&self) -> usize {
        filled(&self.records.atom_names, |&name| name).len()
    }

    fn atoms_at(&self, places: Range<usize>) -> impl ExactSizeIterator<Item = Atom> {
        let records = &self.records;
        places.map(|place| Atom {
            residue: Key::of_packed(records.atom_keys[place]),
            name: Name::of_packed(records.atom_names[place]),
            element: records.elements[place],
            position: records.positions[place],
            occupancy: records.occupancies[place],
        })
    }
}

/// How many records are filled, of how many; the records themselves may be a million.
impl fmt::Debug for Room {
    fn fmt(&self, formatter: &mut fmt::Formatter<'_>) -> fmt::Result {
        let Records {
            chains,
            residue_names,
            atom_names,
            ..
        } = &self.records;
        let mut room = formatter.debug_struct("Room");
        for (kind, filled, all) in [
            ("chains", self.chains().len(), chains.len()),
            ("residues", self.residues().len(), residue_names.len()),
            ("atoms", self.atoms().len(), atom_names.len()),
        ] {
            room.field(kind, &format_args!("{filled} of {all}"));
        }
        room.finish()
    }
}

/// The records of the model, of which no name is zero; all past it are.
fn filled<T>(records: &[T], name: impl Fn(&T) -> u64) -> &[T] {
    &records[..records.partition_point(|record| name(record) != 0)]
}
