//! What rows come to by document 01's own words, in plain maps, with nothing of the published Rust's or of
//! ours: which records there are after each row, so which row lacks room, and what is in them at the end.
use crate::outcomes::{Counts, Outcome, Reason, Refusal};
use crate::records::Room;
use crate::sites::Site;
use crate::structures::{Atom, Key, Model};
use std::collections::BTreeMap;

/// The symbols of these rows that are elements.
const ELEMENTS: [(&str, u8); 3] = [("C", 6), ("N", 7), ("O", 8)];

/// The row of an atom that is kept so far.
struct Kept {
    occupancy: f64,
    element: u8,
    position: [f64; 3],
}

/// By its first row; the atoms by their names.
struct Residue {
    name: String,
    atoms: BTreeMap<String, Kept>,
}

#[derive(Default)]
pub struct Plain {
    chains: Vec<String>,
    residues: BTreeMap<Key, Residue>,
    counts: Counts,
    /// The line of each row that is not skipped, and what is needed so far.
    needed: Vec<(usize, Room)>,
}

impl Plain {
    /// Of these rows, the first of which has that line.
    pub fn of_sites(sites: &[Site], first_line: usize) -> Self {
        let mut plain = Self::default();
        for (place, site) in sites.iter().enumerate() {
            plain.row(site, first_line + place);
        }
        plain
    }

    fn row(&mut self, site: &Site, line: usize) {
        self.counts.rows += 1;
        if site.axes.iter().any(|axis| is_none(axis)) {
            self.counts.skipped += 1;
            return;
        }
        let occupancy = if is_none(&site.occupancy) {
            self.counts.assumed += 1;
            1.0
        } else {
            number(&site.occupancy)
        };
        let key = self.key(site);
        let residue = self.residues.entry(key).or_insert_with(|| {
            self.counts.residues += 1;
            Residue {
                name: site.residue.clone(),
                atoms: BTreeMap::new(),
            }
        });
        let element = ELEMENTS.iter().find(|(symbol, _)| *symbol == site.symbol);
        let kept = Kept {
            occupancy,
            element: element.map_or(0, |(_, element)| *element),
            position: [0, 1, 2].map(|axis| number(&site.axes[axis])),
        };
        match residue.atoms.get_mut(&site.atom) {
            None => {
                self.counts.atoms += 1;
                residue.atoms.insert(site.atom.clone(), kept);
            }
            Some(before) => {
                self.counts.outdone += 1;
                if before.occupancy < occupancy {
                    *before = kept;
                }
            }
        }
        self.counts.chains = self.chains.len() as u64;
        self.needed.push((line, Room::of_counts(&self.counts)));
    }

    /// Chains are numbered as they are met.
    fn key(&mut self, site: &Site) -> Key {
        let met = self.chains.iter().position(|chain| *chain == site.chain);
        let place = met.unwrap_or_else(|| {
            self.chains.push(site.chain.clone());
            self.chains.len() - 1
        });
        let sequence = site.sequence.parse().expect("these rows have numbers");
        let code = site.code.chars().next().filter(|_| !is_none(&site.code));
        (place, sequence, code)
    }

    /// What is needed for all rows.
    pub fn room(&self) -> Room {
        Room::of_counts(&self.counts)
    }

    /// The answer in records of that room: the first row that needs more is refused, for chains, residues
    /// or atoms, the first of these that are lacking.
    pub fn outcome(&self, room: Room) -> Outcome {
        let lacking = |(line, needed): &(usize, Room)| {
            let kinds = [
                needed.chains > room.chains,
                needed.residues > room.residues,
                needed.atoms > room.atoms,
            ];
            let kind = kinds.iter().position(|&lacks| lacks)?;
            Some(Refusal {
                reason: Reason::NoRoom,
                line: *line as u64,
                detail: kind as u64 + 1,
            })
        };
        let refusal = self.needed.iter().find_map(lacking);
        refusal.map_or(Outcome::Read(self.counts), Outcome::Refused)
    }

    /// The bits of the occupancies of the atoms in their order.
    pub fn occupancies(&self) -> Vec<u64> {
        let atoms = self
            .residues
            .values()
            .flat_map(|residue| residue.atoms.values());
        atoms.map(|kept| kept.occupancy.to_bits()).collect()
    }

    /// Whether that model has these chains, residues and atoms; the names of these rows are all canonical.
    pub fn is_told_by(&self, model: &Model) -> bool {
        let residues = self
            .residues
            .iter()
            .map(|(key, residue)| (*key, &residue.name));
        let atoms = self.residues.iter().flat_map(|(&key, residue)| {
            residue.atoms.iter().map(move |(name, kept)| Atom {
                residue: key,
                name: name.clone(),
                element: kept.element,
                position: kept.position.map(f64::to_bits),
            })
        });
        model.chains == self.chains
            && residues.eq(model.residues.iter().map(|told| (told.key, &told.name)))
            && atoms.eq(model.atoms.iter().cloned())
    }
}

fn is_none(cell: &str) -> bool {
    matches!(cell, "." | "?")
}

fn number(cell: &str) -> f64 {
    cell.parse().expect("these rows have numbers")
}
