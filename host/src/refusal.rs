//! A refusal by number, line and detail, and the sentence that says it in plain English.
use std::error::Error;
use std::fmt;

/// Why a text is not taken in. Its constants are the numbers; as text it is a sentence.
#[derive(Clone, Copy, PartialEq, Eq, Hash)]
pub struct Refusal {
    /// Which of the refusals it is.
    pub number: u32,
    /// Counted from 1; 0 where no line is to blame.
    pub line: u32,
    /// What it means depends on the number; 0 where there is nothing to add.
    pub detail: u32,
}

impl Refusal {
    /// The text has more than 16,777,216 bytes.
    pub const TEXT_TOO_LONG: u32 = 1;
    /// A byte is not 9, 10, 32 to 126, or 13 directly before 10; the detail is the first such byte.
    pub const OUTSIDE_DOMAIN: u32 = 2;
    /// A line has more than 2,048 bytes without its ending.
    pub const LINE_TOO_LONG: u32 = 3;
    /// A loop has a 65th header.
    pub const TOO_MANY_HEADERS: u32 = 4;
    /// A column is missing; details 1 to 7: atom, residue, chain, sequence, x, y, z.
    pub const COLUMN_MISSING: u32 = 5;
    /// A row ends before a column that is read.
    pub const ROW_SHORT: u32 = 6;
    /// A coordinate is no number; details 1 to 3: x, y, z.
    pub const OUTSIDE_GRAMMAR: u32 = 7;
    /// A number is a word, has an exponent or more than 15 digits, leading zeros counted, or is above
    /// 1,000,000 in magnitude; details 1 to 4: x, y, z, occupancy.
    pub const BEYOND_REACH: u32 = 8;
    /// A name has more than 8 bytes; details 1 to 3: atom, residue, chain.
    pub const NAME_TOO_LONG: u32 = 9;
    /// There is no room for what a row brings; details 1 to 3: chain, residue, atom.
    pub const NO_ROOM: u32 = 10;
    /// A residue is unknown and not marked HETATM; the detail is its place in the model, from 1.
    pub const UNKNOWN_RESIDUE: u32 = 11;
    /// The model is not well formed; no text that is read gives one.
    pub const NOT_WELL_FORMED: u32 = 12;
    /// A name or an insertion code could not be read again; the detail is the number of the first such
    /// atom, from 1.
    pub const CANNOT_BE_WRITTEN: u32 = 13;
    /// The output is too short; the detail says how many bytes are needed.
    pub const OUTPUT_TOO_SHORT: u32 = 14;
    /// The result is not 28 bytes long. This crate's always is.
    pub const RESULT_LENGTH: u32 = 26;

    /// What the detail names, where it is a place in a list that counts from 1.
    fn named(&self) -> &'static str {
        let names: &[&str] = match self.number {
            Self::COLUMN_MISSING => &[
                "atom name",
                "residue name",
                "chain name",
                "sequence number",
                "x coordinate",
                "y coordinate",
                "z coordinate",
            ],
            Self::OUTSIDE_GRAMMAR => &["x coordinate", "y coordinate", "z coordinate"],
            Self::BEYOND_REACH => &["x coordinate", "y coordinate", "z coordinate", "occupancy"],
            Self::NAME_TOO_LONG => &["atom name", "residue name", "chain name"],
            Self::NO_ROOM => &["chain", "residue", "atom"],
            _ => &[],
        };
        let place = (self.detail as usize).wrapping_sub(1);
        names.get(place).unwrap_or(&"thing without a name")
    }
}

impl fmt::Display for Refusal {
    fn fmt(&self, formatter: &mut fmt::Formatter<'_>) -> fmt::Result {
        if self.line != 0 {
            write!(formatter, "line {}: ", self.line)?;
        }
        let detail = self.detail;
        let named = self.named();
        match self.number {
            Self::TEXT_TOO_LONG => formatter.write_str("the text is longer than 16,777,216 bytes"),
            Self::OUTSIDE_DOMAIN if detail == 13 => {
                formatter.write_str("byte 13 does not stand directly before byte 10")
            }
            Self::OUTSIDE_DOMAIN => write!(formatter, "byte {detail} is not allowed"),
            Self::LINE_TOO_LONG => formatter.write_str("the line is longer than 2,048 bytes"),
            Self::TOO_MANY_HEADERS => formatter.write_str("the loop has more than 64 headers"),
            Self::COLUMN_MISSING => write!(formatter, "there is no column for the {named}"),
            Self::ROW_SHORT => formatter.write_str("the row is too short"),
            Self::OUTSIDE_GRAMMAR => write!(formatter, "the {named} is not a number"),
            Self::BEYOND_REACH => write!(formatter, "the {named} is beyond reach"),
            Self::NAME_TOO_LONG => write!(formatter, "the {named} is longer than 8 bytes"),
            Self::NO_ROOM => write!(formatter, "no room for another {named}"),
            Self::UNKNOWN_RESIDUE => write!(
                formatter,
                "residue {detail} of the model is unknown and not marked HETATM"
            ),
            Self::NOT_WELL_FORMED => formatter.write_str("the model is not well formed"),
            Self::CANNOT_BE_WRITTEN => write!(
                formatter,
                "atom {detail} of the model has a name or an insertion code that could not be read again"
            ),
            Self::OUTPUT_TOO_SHORT => write!(
                formatter,
                "the output is too short: {detail} bytes are needed"
            ),
            Self::RESULT_LENGTH => formatter.write_str("the result is not 28 bytes long"),
            number => write!(formatter, "refused by number {number}, detail {detail}"),
        }
    }
}

/// With the sentence, since this is what `unwrap` and a `main` that fails print.
impl fmt::Debug for Refusal {
    fn fmt(&self, formatter: &mut fmt::Formatter<'_>) -> fmt::Result {
        formatter
            .debug_struct("Refusal")
            .field("number", &self.number)
            .field("line", &self.line)
            .field("detail", &self.detail)
            .field("sentence", &self.to_string())
            .finish()
    }
}

impl Error for Refusal {}

#[cfg(test)]
mod tests {
    use super::*;

    /// Each number with each of its details, and the sentence for it.
    const SENTENCES: [(u32, u32, u32, &str); 35] = [
        (1, 0, 0, "the text is longer than 16,777,216 bytes"),
        (2, 3, 195, "line 3: byte 195 is not allowed"),
        (2, 3, 0, "line 3: byte 0 is not allowed"),
        (
            2,
            3,
            13,
            "line 3: byte 13 does not stand directly before byte 10",
        ),
        (3, 4, 0, "line 4: the line is longer than 2,048 bytes"),
        (4, 66, 0, "line 66: the loop has more than 64 headers"),
        (5, 12, 1, "line 12: there is no column for the atom name"),
        (5, 12, 2, "line 12: there is no column for the residue name"),
        (5, 12, 3, "line 12: there is no column for the chain name"),
        (
            5,
            12,
            4,
            "line 12: there is no column for the sequence number",
        ),
        (5, 12, 5, "line 12: there is no column for the x coordinate"),
        (5, 12, 6, "line 12: there is no column for the y coordinate"),
        (5, 12, 7, "line 12: there is no column for the z coordinate"),
        (6, 12, 0, "line 12: the row is too short"),
        (7, 12, 1, "line 12: the x coordinate is not a number"),
        (7, 12, 2, "line 12: the y coordinate is not a number"),
        (7, 12, 3, "line 12: the z coordinate is not a number"),
        (8, 12, 1, "line 12: the x coordinate is beyond reach"),
        (8, 12, 2, "line 12: the y coordinate is beyond reach"),
        (8, 12, 3, "line 12: the z coordinate is beyond reach"),
        (8, 12, 4, "line 12: the occupancy is beyond reach"),
        (9, 12, 1, "line 12: the atom name is longer than 8 bytes"),
        (9, 12, 2, "line 12: the residue name is longer than 8 bytes"),
        (9, 12, 3, "line 12: the chain name is longer than 8 bytes"),
        (10, 40, 1, "line 40: no room for another chain"),
        (10, 40, 2, "line 40: no room for another residue"),
        (10, 40, 3, "line 40: no room for another atom"),
        (
            11,
            0,
            3,
            "residue 3 of the model is unknown and not marked HETATM",
        ),
        (12, 0, 0, "the model is not well formed"),
        (
            13,
            0,
            5,
            "atom 5 of the model has a name or an insertion code that could not be read again",
        ),
        (14, 0, 720, "the output is too short: 720 bytes are needed"),
        (26, 0, 0, "the result is not 28 bytes long"),
        // No call answers these; they still have a sentence.
        (
            5,
            12,
            8,
            "line 12: there is no column for the thing without a name",
        ),
        (
            10,
            40,
            0,
            "line 40: no room for another thing without a name",
        ),
        (99, 1, 2, "line 1: refused by number 99, detail 2"),
    ];

    #[test]
    fn every_refusal_has_its_sentence() {
        for (number, line, detail, sentence) in SENTENCES {
            let refusal = Refusal {
                number,
                line,
                detail,
            };
            assert_eq!(refusal.to_string(), sentence);
        }
    }

    #[test]
    fn a_failing_program_prints_the_sentence() {
        let refusal = Refusal {
            number: Refusal::BEYOND_REACH,
            line: 12,
            detail: 4,
        };
        assert_eq!(
            format!("{refusal:?}"),
            r#"Refusal { number: 8, line: 12, detail: 4, sentence: "line 12: the occupancy is beyond reach" }"#
        );
    }

    #[test]
    fn every_number_is_tried() {
        let numbers = [
            Refusal::TEXT_TOO_LONG,
            Refusal::OUTSIDE_DOMAIN,
            Refusal::LINE_TOO_LONG,
            Refusal::TOO_MANY_HEADERS,
            Refusal::COLUMN_MISSING,
            Refusal::ROW_SHORT,
            Refusal::OUTSIDE_GRAMMAR,
            Refusal::BEYOND_REACH,
            Refusal::NAME_TOO_LONG,
            Refusal::NO_ROOM,
            Refusal::UNKNOWN_RESIDUE,
            Refusal::NOT_WELL_FORMED,
            Refusal::CANNOT_BE_WRITTEN,
            Refusal::OUTPUT_TOO_SHORT,
            Refusal::RESULT_LENGTH,
        ];
        for number in numbers {
            assert!(SENTENCES.iter().any(|&(tried, ..)| tried == number));
        }
    }
}
