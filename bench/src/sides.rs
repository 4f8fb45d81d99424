//! The two readers, each timed from the text to all that it makes of it.
use crate::files::File;
use compare::outcomes::{Counts, Outcome};
use compare::records::Records;
use compare::structures::Model;
use compare::{answers, probe};
use published::model::structure::Structure;
use std::hint::black_box;
use std::time::{Duration, Instant};

#[derive(Debug, Clone, Copy, PartialEq, Eq)]
pub enum Side {
    Ours,
    Published,
}

impl Side {
    pub const ALL: [Self; 2] = [Self::Ours, Self::Published];

    pub fn name(self) -> &'static str {
        match self {
            Self::Ours => "ours",
            Self::Published => "published",
        }
    }

    /// What one reading makes, and how long it takes. What is made before and given back after it is not
    /// timed.
    pub fn read(self, text: &str, records: &mut Records) -> (Made, Duration) {
        match self {
            Self::Ours => {
                records.soil();
                let began = Instant::now();
                let outcome = black_box(probe::read(text.as_bytes(), records));
                let took = began.elapsed();
                match outcome {
                    Outcome::Read(counts) => (Made::Ours(counts), took),
                    refused => panic!("the file is {refused}"),
                }
            }
            Self::Published => {
                let began = Instant::now();
                let structure = black_box(answers::structure(text));
                let took = began.elapsed();
                let structure = structure.expect("the published Rust reads the file");
                (Made::Published(structure), took)
            }
        }
    }

    pub fn time(self, text: &str, records: &mut Records) -> Duration {
        self.read(text, records).1
    }
}

/// What a side made: how much of the records ours filled, or the published structure.
pub enum Made {
    Ours(Counts),
    Published(Structure),
}

impl Made {
    pub fn model(&self, records: &Records) -> Model {
        match self {
            Self::Ours(counts) => Model::of_records(records, counts),
            Self::Published(structure) => Model::of_published(structure),
        }
    }
}

/// Fails if the two do not make the same of the file: what is timed has to be the same work.
pub fn compare(file: &File, text: &str) {
    let mut records = Records::new(file.room());
    let [ours, published] = Side::ALL.map(|side| {
        let (made, _) = side.read(text, &mut records);
        made.model(&records)
    });
    assert!(
        ours == published,
        "{file:?}: {}",
        ours.difference(&published)
    );
}
