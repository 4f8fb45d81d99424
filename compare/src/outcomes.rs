//! What a reading answers: how much was read, or which refusal comes, where, and with what detail.
use std::fmt;

/// The refusals of a reading, by their numbers.
#[derive(Debug, Clone, Copy, PartialEq, Eq, PartialOrd, Ord)]
#[repr(u64)]
pub enum Reason {
    TextTooLong = 1,
    OutsideDomain,
    LineTooLong,
    TooManyHeaders,
    ColumnMissing,
    RowShort,
    OutsideGrammar,
    BeyondReach,
    NameTooLong,
    NoRoom,
    UnknownResidue,
}

impl Reason {
    pub const ALL: [Self; 11] = [
        Self::TextTooLong,
        Self::OutsideDomain,
        Self::LineTooLong,
        Self::TooManyHeaders,
        Self::ColumnMissing,
        Self::RowShort,
        Self::OutsideGrammar,
        Self::BeyondReach,
        Self::NameTooLong,
        Self::NoRoom,
        Self::UnknownResidue,
    ];

    pub fn of_number(number: u64) -> Option<Self> {
        Self::ALL
            .into_iter()
            .find(|reason| *reason as u64 == number)
    }

    /// Whether the published Rust refuses for this reason too. The others are limits that it lacks.
    pub fn is_shared(self) -> bool {
        use Reason::*;
        matches!(
            self,
            ColumnMissing | RowShort | OutsideGrammar | UnknownResidue
        )
    }

    /// The texts that are refused for this reason.
    pub fn name(self) -> &'static str {
        match self {
            Self::TextTooLong => "texts that are too long",
            Self::OutsideDomain => "texts with a byte outside the domain",
            Self::LineTooLong => "texts with a line that is too long",
            Self::TooManyHeaders => "texts with a 65th header",
            Self::ColumnMissing => "texts with a column missing",
            Self::RowShort => "texts with a short row",
            Self::OutsideGrammar => "texts with a coordinate outside the grammar",
            Self::BeyondReach => "texts with a number beyond reach",
            Self::NameTooLong => "texts with a name that is too long",
            Self::NoRoom => "texts without room",
            Self::UnknownResidue => "texts with an unknown residue",
        }
    }
}

#[derive(Debug, Clone, Copy, PartialEq, Eq)]
pub struct Refusal {
    pub reason: Reason,
    pub line: u64,
    pub detail: u64,
}

/// How many records were filled, and what became of the rows.
#[derive(Debug, Clone, Copy, Default, PartialEq, Eq)]
pub struct Counts {
    pub chains: u64,
    pub residues: u64,
    pub atoms: u64,
    pub rows: u64,
    pub skipped: u64,
    pub outdone: u64,
    pub assumed: u64,
}

#[derive(Debug, Clone, Copy, PartialEq, Eq)]
pub enum Outcome {
    Read(Counts),
    Refused(Refusal),
}

impl Outcome {
    /// From the ten numbers of an answer. What no answer may look like is told by them.
    pub fn of_numbers(numbers: [u64; 10]) -> Self {
        let [number, line, detail, counts @ ..] = numbers;
        match (Reason::of_number(number), (number, line, detail), counts) {
            (None, (0, 0, 0), [chains, residues, atoms, rows, skipped, outdone, assumed]) => {
                Self::Read(Counts {
                    chains,
                    residues,
                    atoms,
                    rows,
                    skipped,
                    outdone,
                    assumed,
                })
            }
            (Some(reason), _, [0, 0, 0, 0, 0, 0, 0]) => Self::Refused(Refusal {
                reason,
                line,
                detail,
            }),
            _ => panic!("a reading has no answer {numbers:?}"),
        }
    }
}

impl fmt::Display for Outcome {
    fn fmt(&self, formatter: &mut fmt::Formatter<'_>) -> fmt::Result {
        match self {
            Self::Read(counts) => write!(formatter, "read {counts:?}"),
            Self::Refused(Refusal {
                reason,
                line,
                detail,
            }) => {
                let number = *reason as u64;
                write!(formatter, "refused {number} line {line} detail {detail}")
            }
        }
    }
}
