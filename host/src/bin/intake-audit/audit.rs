//! What became of one file.
use crate::input;
use crate::reason::Reason;
use crate::walk::Found;
use std::path::PathBuf;
use structure_intake::{Refusal, Report, Room};

pub struct Audit {
    pub file: PathBuf,
    pub outcome: Outcome,
}

pub enum Outcome {
    Taken(Counts),
    Refused(Refusal),
    /// Why, as the system says where it is to blame.
    Unreadable(String),
}

/// How many of each the model has, and what became of the rows.
pub struct Counts {
    pub chains: usize,
    pub residues: usize,
    pub atoms: usize,
    pub report: Report,
}

impl Audit {
    pub fn of(found: &Found) -> Self {
        let (file, outcome) = match found {
            Found::Lost(folder, why) => (folder, Outcome::Unreadable(why.clone())),
            Found::Text(file) => match input::read(file) {
                Ok(text) => (file, Outcome::of_text(&text)),
                Err(error) => (file, Outcome::Unreadable(error.to_string())),
            },
        };
        Self {
            file: file.clone(),
            outcome,
        }
    }

    /// Why the file is marked; none for one that was not taken in, whose outcome says enough.
    pub fn reasons(&self) -> Vec<Reason> {
        match &self.outcome {
            Outcome::Taken(counts) => Reason::all_of(&counts.report),
            Outcome::Refused(_) | Outcome::Unreadable(_) => Vec::new(),
        }
    }
}

impl Outcome {
    fn of_text(text: &[u8]) -> Self {
        let mut room = Room::for_text(text);
        match room.intake_whole(text) {
            Ok((report, _)) => Self::Taken(Counts {
                chains: room.chains().len(),
                residues: room.residues().len(),
                atoms: room.atoms().len(),
                report,
            }),
            Err(refusal) => Self::Refused(refusal),
        }
    }
}
