//! What the host call must answer: the refusal of the reading, or what the published writer makes of
//! its structure, with the room in the output laid over it.
use crate::outcomes::{Counts, Outcome};
use crate::readings::Reading;
use crate::service::RESULT_BYTES;
use crate::writings;

const CANNOT_BE_WRITTEN: u32 = 13;
const OUTPUT_TOO_SHORT: u32 = 14;

/// What a text must come to, whatever the output's length.
pub enum Serving {
    /// The number, the line and the detail.
    Refused(u32, u32, u32),
    Written(Counts, String),
}

/// What a call must answer, and the result's bytes.
pub type Answer = (u32, [u8; RESULT_BYTES]);

impl Serving {
    pub fn of_reading(reading: &Reading) -> Self {
        let counts = match reading.outcome {
            Outcome::Refused(refusal) => {
                let number = refusal.reason as u32;
                return Self::Refused(number, refusal.line as u32, refusal.detail as u32);
            }
            Outcome::Read(counts) => counts,
        };
        match writings::first_unwritable(&reading.structure) {
            Some(id) => Self::Refused(CANNOT_BE_WRITTEN, 0, id as u32),
            None => Self::Written(counts, writings::text(&reading.structure)),
        }
    }

    /// How many bytes are written where there is room; 0 after a refusal.
    pub fn length(&self) -> usize {
        match self {
            Self::Refused(..) => 0,
            Self::Written(_, text) => text.len(),
        }
    }

    /// What must be answered where the output has that length, and what is written to its start.
    pub fn with_output(&self, length: usize) -> (Answer, &str) {
        match self {
            Self::Refused(number, line, detail) => (refused(*number, *line, *detail), ""),
            Self::Written(_, text) if text.len() > length => {
                (refused(OUTPUT_TOO_SHORT, 0, text.len() as u32), "")
            }
            Self::Written(counts, text) => {
                let Counts {
                    rows,
                    skipped,
                    outdone,
                    assumed,
                    ..
                } = counts;
                let counts = [rows, skipped, outdone, assumed].map(|count| *count as u32);
                let [rows, skipped, outdone, assumed] = counts;
                let written = text.len() as u32;
                let result = result([0, 0, written, rows, skipped, outdone, assumed]);
                ((0, result), text)
            }
        }
    }
}

fn refused(number: u32, line: u32, detail: u32) -> Answer {
    (number, result([line, detail, 0, 0, 0, 0, 0]))
}

/// Seven numbers of four bytes, each with its lowest byte first.
fn result(numbers: [u32; 7]) -> [u8; RESULT_BYTES] {
    let bytes = numbers.map(u32::to_le_bytes).concat();
    bytes.try_into().expect("seven fours are 28")
}
