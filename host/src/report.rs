//! What a text that was taken in is told by: the bytes written, and what became of its rows.
use crate::call::RESULT_BYTES;
use crate::refusal::Refusal;

/// The counts speak of the rows of the text; [`Report::atoms`] is what they leave.
#[derive(Debug, Clone, Copy, PartialEq, Eq)]
pub struct Report {
    /// How long the text written is.
    pub bytes_written: usize,
    /// The rows of all atom loops.
    pub rows: usize,
    /// Rows with `.` or `?` for a coordinate.
    pub skipped: usize,
    /// Unskipped rows that are not the kept row of their atom.
    pub outdone: usize,
    /// Unskipped rows whose occupancy was taken as 1.0: they have none, or none that is a number.
    pub assumed: usize,
}

impl Report {
    /// How many atoms the model has: each row is skipped, outdone, or the kept row of its atom.
    pub fn atoms(&self) -> usize {
        self.rows - self.skipped - self.outdone
    }
}

/// What a call answered and the result that it filled.
pub(crate) fn of_answer(answer: u32, result: &[u8; RESULT_BYTES]) -> Result<Report, Refusal> {
    let [line, detail, bytes_written, rows, skipped, outdone, assumed] = numbers(result);
    if answer != 0 {
        return Err(Refusal {
            number: answer,
            line,
            detail,
        });
    }
    Ok(Report {
        bytes_written: bytes_written as usize,
        rows: rows as usize,
        skipped: skipped as usize,
        outdone: outdone as usize,
        assumed: assumed as usize,
    })
}

/// Seven numbers of four bytes, each with its lowest byte first.
fn numbers(result: &[u8; RESULT_BYTES]) -> [u32; RESULT_BYTES / 4] {
    let (fours, _) = result.as_chunks();
    let mut numbers = [0; RESULT_BYTES / 4];
    for (number, &four) in numbers.iter_mut().zip(fours) {
        *number = u32::from_le_bytes(four);
    }
    numbers
}

#[cfg(test)]
mod tests {
    use super::*;

    fn result(numbers: [u32; 7]) -> [u8; RESULT_BYTES] {
        let bytes = numbers.map(u32::to_le_bytes);
        bytes.concat().try_into().expect("seven fours are 28")
    }

    #[test]
    fn each_number_has_its_place() {
        let report = of_answer(0, &result([0, 0, 70_000, 9, 1, 2, 3]));
        let expected = Report {
            bytes_written: 70_000,
            rows: 9,
            skipped: 1,
            outdone: 2,
            assumed: 3,
        };
        assert_eq!(report, Ok(expected));
        assert_eq!(expected.atoms(), 6);
    }

    #[test]
    fn a_refusal_has_line_and_detail() {
        let refusal = of_answer(8, &result([12, 4, 0, 0, 0, 0, 0])).unwrap_err();
        assert_eq!((refusal.number, refusal.line, refusal.detail), (8, 12, 4));
    }
}
