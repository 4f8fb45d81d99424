//! Why the model of a text that was taken in may be worth nothing: each reason for a mark, and the words
//! that tell it.
use std::fmt;
use structure_intake::Report;

#[derive(Debug, Clone, Copy, PartialEq, Eq)]
pub enum Reason {
    /// The text is empty, or no mmCIF at all, or has no atoms to tell of.
    NoRows,
    /// Every row is skipped.
    NoAtoms,
    /// More than half of the unskipped rows are, as where the models of an entry are merged. Two
    /// alternates of every atom are no more than half.
    MostOutdone {
        outdone: usize,
        unskipped: usize,
    },
    OccupanciesAssumed(usize),
}

impl Reason {
    pub fn all_of(report: &Report) -> Vec<Self> {
        let &Report {
            rows,
            skipped,
            outdone,
            assumed,
            ..
        } = report;
        let unskipped = rows - skipped;
        let reasons = [
            (rows == 0, Self::NoRows),
            (rows > 0 && report.atoms() == 0, Self::NoAtoms),
            (
                outdone > unskipped / 2,
                Self::MostOutdone { outdone, unskipped },
            ),
            (assumed > 0, Self::OccupanciesAssumed(assumed)),
        ];
        let given = reasons.into_iter().filter(|&(holds, _)| holds);
        given.map(|(_, reason)| reason).collect()
    }
}

impl fmt::Display for Reason {
    fn fmt(&self, formatter: &mut fmt::Formatter<'_>) -> fmt::Result {
        match self {
            Self::NoRows => formatter.write_str("no rows"),
            Self::NoAtoms => formatter.write_str("no atoms"),
            Self::MostOutdone { outdone, unskipped } => {
                write!(formatter, "{outdone} of {unskipped} unskipped rows outdone")
            }
            Self::OccupanciesAssumed(1) => formatter.write_str("1 occupancy assumed"),
            Self::OccupanciesAssumed(many) => write!(formatter, "{many} occupancies assumed"),
        }
    }
}

#[cfg(test)]
mod tests {
    use super::*;

    fn told(rows: usize, skipped: usize, outdone: usize, assumed: usize) -> Vec<String> {
        let report = Report {
            bytes_written: 0,
            rows,
            skipped,
            outdone,
            assumed,
        };
        let reasons = Reason::all_of(&report);
        reasons.iter().map(Reason::to_string).collect()
    }

    #[test]
    fn each_reason_is_told() {
        assert_eq!(told(0, 0, 0, 0), ["no rows"]);
        assert_eq!(told(3, 3, 0, 0), ["no atoms"]);
        assert_eq!(told(9, 0, 0, 1), ["1 occupancy assumed"]);
        let both = ["2 of 3 unskipped rows outdone", "3 occupancies assumed"];
        assert_eq!(told(3, 0, 2, 3), both);
    }

    /// Of an even and of an odd number of rows, and skipped rows are not counted.
    #[test]
    fn more_than_half_is_outdone_and_no_less() {
        assert!(told(4, 0, 2, 0).is_empty());
        assert!(told(5, 0, 2, 0).is_empty());
        assert_eq!(told(5, 0, 3, 0), ["3 of 5 unskipped rows outdone"]);
        assert_eq!(told(5, 1, 3, 0), ["3 of 4 unskipped rows outdone"]);
        assert_eq!(told(5, 2, 2, 0), ["2 of 3 unskipped rows outdone"]);
    }
}
