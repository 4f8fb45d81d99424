//! The proved functions of the archives, called through C conventions: a slice is a pointer and a
//! length.
use crate::outcomes::Outcome;
use crate::records::{Chain, Records, Room};
use std::fmt;

unsafe extern "C" {
    fn probe_number_kind(text: *const u8, length: usize) -> u32;
    fn probe_number_value(text: *const u8, length: usize) -> f64;
    fn probe_write_thousandths(
        out: *mut u8,
        length: usize,
        at: usize,
        x: f64,
        number: *mut usize,
    ) -> u32;
    fn probe_token(
        line: *const u8,
        length: usize,
        k: usize,
        cell: *mut u8,
        cell_length: usize,
    ) -> usize;
    fn probe_item(token: *const u8, length: usize) -> usize;
    fn probe_sequence(token: *const u8, length: usize) -> u32;
    fn probe_quote(
        name: *const u8,
        length: usize,
        out: *mut u8,
        out_length: usize,
        at: usize,
        number: *mut usize,
    ) -> u32;
    fn probe_resolve(name: *const u8, length: usize, canonical: *mut u64) -> u8;
    fn probe_element(symbol: *const u8, length: usize) -> u8;
    fn probe_symbol(element: u8) -> u64;
    fn probe_read(
        numbers: *mut u64,
        numbers_length: usize,
        text: *const u8,
        length: usize,
        chains: *mut Chain,
        chains_length: usize,
        residue_keys: *mut u64,
        residue_keys_length: usize,
        residue_names: *mut u64,
        residue_names_length: usize,
        residue_codes: *mut u8,
        residue_codes_length: usize,
        residue_categories: *mut u8,
        residue_categories_length: usize,
        residue_positions: *mut u8,
        residue_positions_length: usize,
        atom_keys: *mut u64,
        atom_keys_length: usize,
        atom_names: *mut u64,
        atom_names_length: usize,
        elements: *mut u8,
        elements_length: usize,
        positions: *mut [f64; 3],
        positions_length: usize,
        occupancies: *mut f64,
        occupancies_length: usize,
    );
    fn probe_write(
        numbers: *mut u64,
        numbers_length: usize,
        chains: *const Chain,
        chains_length: usize,
        residue_keys: *const u64,
        residue_keys_length: usize,
        residue_names: *const u64,
        residue_names_length: usize,
        residue_codes: *const u8,
        residue_codes_length: usize,
        residue_categories: *const u8,
        residue_categories_length: usize,
        residue_positions: *const u8,
        residue_positions_length: usize,
        atom_keys: *const u64,
        atom_keys_length: usize,
        atom_names: *const u64,
        atom_names_length: usize,
        elements: *const u8,
        elements_length: usize,
        positions: *const [f64; 3],
        positions_length: usize,
        occupancies: *const f64,
        occupancies_length: usize,
        chain_count: usize,
        residue_count: usize,
        atom_count: usize,
        out: *mut u8,
        out_length: usize,
    );
}

/// What a text is as a number.
#[derive(Debug, Clone, Copy)]
pub enum Number {
    OutsideGrammar,
    BeyondReach,
    Value(f64),
}

/// Bit by bit, so that -0.0 is not 0.0.
impl PartialEq for Number {
    fn eq(&self, other: &Self) -> bool {
        match (self, other) {
            (Self::Value(one), Self::Value(two)) => one.to_bits() == two.to_bits(),
            (Self::OutsideGrammar, Self::OutsideGrammar) => true,
            (Self::BeyondReach, Self::BeyondReach) => true,
            _ => false,
        }
    }
}

/// As the stored answers have it: a word, or the bits.
impl fmt::Display for Number {
    fn fmt(&self, formatter: &mut fmt::Formatter<'_>) -> fmt::Result {
        match self {
            Self::OutsideGrammar => formatter.write_str("outside"),
            Self::BeyondReach => formatter.write_str("beyond"),
            Self::Value(value) => write!(formatter, "{:016x}", value.to_bits()),
        }
    }
}

/// What became of a text that was to be written.
#[derive(Debug, Clone, Copy, PartialEq, Eq)]
pub enum Written {
    BeyondReach,
    /// How many bytes the text needs.
    NoRoom(usize),
    /// The place after the text.
    Next(usize),
}

pub fn read_number(text: &[u8]) -> Number {
    // SAFETY: both functions only read, and only the bytes of `text`.
    let (kind, value) = unsafe {
        (
            probe_number_kind(text.as_ptr(), text.len()),
            probe_number_value(text.as_ptr(), text.len()),
        )
    };
    match (kind, value.to_bits()) {
        (0, 0) => Number::OutsideGrammar,
        (1, 0) => Number::BeyondReach,
        (2, _) => Number::Value(value),
        answer => panic!("a number has no answer {answer:?}"),
    }
}

/// Writes `x` with three places into `out`, from the place `at` on.
pub fn write_thousandths(out: &mut [u8], at: usize, x: f64) -> Written {
    let mut number = usize::MAX;
    // SAFETY: the function reads and writes `out` and `number` alone.
    let answer =
        unsafe { probe_write_thousandths(out.as_mut_ptr(), out.len(), at, x, &mut number) };
    written(answer, number)
}

fn written(answer: u32, number: usize) -> Written {
    match (answer, number) {
        (0, 0) => Written::BeyondReach,
        (1, needed) => Written::NoRoom(needed),
        (2, next) => Written::Next(next),
        answer => panic!("writing has no answer {answer:?}"),
    }
}

/// Puts the line's token `k`, counted from 0, at the front of the cell as far as it fits. Its true
/// length, 0 where there is none.
pub fn token(line: &[u8], k: usize, cell: &mut [u8]) -> usize {
    // SAFETY: the function reads the bytes of `line`, and writes those of `cell`.
    unsafe { probe_token(line.as_ptr(), line.len(), k, cell.as_mut_ptr(), cell.len()) }
}

/// Which item the token names, 15 where it names none.
pub fn item(token: &[u8]) -> usize {
    // SAFETY: the function only reads, and only the bytes of `token`.
    unsafe { probe_item(token.as_ptr(), token.len()) }
}

/// The sequence number, moved up by 2^31.
pub fn sequence(token: &[u8]) -> u32 {
    // SAFETY: the function only reads, and only the bytes of `token`.
    unsafe { probe_sequence(token.as_ptr(), token.len()) }
}

/// Writes the quoted name into `out`, from the place `at` on.
pub fn quote(name: &[u8], out: &mut [u8], at: usize) -> Written {
    let mut number = usize::MAX;
    let (from, to) = (name.as_ptr(), out.as_mut_ptr());
    // SAFETY: the function reads the bytes of `name`, and writes `out` and `number` alone.
    let answer = unsafe { probe_quote(from, name.len(), to, out.len(), at, &mut number) };
    written(answer, number)
}

/// The canonical name and the standard residue's code; empty and 0 where the name has none.
pub fn resolve(name: &[u8]) -> (String, u8) {
    let mut canonical = u64::MAX;
    // SAFETY: the function reads the bytes of `name`, and writes `canonical` alone.
    let code = unsafe { probe_resolve(name.as_ptr(), name.len(), &mut canonical) };
    (unpacked(canonical), code)
}

/// The element's number, 0 where the symbol is none.
pub fn element(symbol: &[u8]) -> u8 {
    // SAFETY: the function only reads, and only the bytes of `symbol`.
    unsafe { probe_element(symbol.as_ptr(), symbol.len()) }
}

pub fn symbol(element: u8) -> String {
    // SAFETY: the function gets a number and gives one.
    unpacked(unsafe { probe_symbol(element) })
}

/// Reads the text into the records.
pub fn read(text: &[u8], records: &mut Records) -> Outcome {
    let mut numbers = [u64::MAX; 10];
    let chains = records.chains.slice();
    let residue_keys = records.residue_keys.slice();
    let residue_names = records.residue_names.slice();
    let residue_codes = records.residue_codes.slice();
    let residue_categories = records.residue_categories.slice();
    let residue_positions = records.residue_positions.slice();
    let atom_keys = records.atom_keys.slice();
    let atom_names = records.atom_names.slice();
    let elements = records.elements.slice();
    let positions = records.positions.slice();
    let occupancies = records.occupancies.slice();
    // SAFETY: the function reads the bytes of `text`, and writes the slices and `numbers` alone,
    // which are all distinct.
    unsafe {
        probe_read(
            numbers.as_mut_ptr(),
            numbers.len(),
            text.as_ptr(),
            text.len(),
            chains.as_mut_ptr(),
            chains.len(),
            residue_keys.as_mut_ptr(),
            residue_keys.len(),
            residue_names.as_mut_ptr(),
            residue_names.len(),
            residue_codes.as_mut_ptr(),
            residue_codes.len(),
            residue_categories.as_mut_ptr(),
            residue_categories.len(),
            residue_positions.as_mut_ptr(),
            residue_positions.len(),
            atom_keys.as_mut_ptr(),
            atom_keys.len(),
            atom_names.as_mut_ptr(),
            atom_names.len(),
            elements.as_mut_ptr(),
            elements.len(),
            positions.as_mut_ptr(),
            positions.len(),
            occupancies.as_mut_ptr(),
            occupancies.len(),
        );
    }
    Outcome::of_numbers(numbers)
}

/// What became of a model's text.
#[derive(Debug, Clone, Copy, PartialEq, Eq)]
pub enum Writing {
    /// So many bytes were written.
    Written(usize),
    /// The refusal's number and detail.
    Refused(u64, u64),
}

/// Writes the model of that room in the records.
pub fn write(records: &mut Records, model: Room, out: &mut [u8]) -> Writing {
    let mut numbers = [u64::MAX; 3];
    let chains = records.chains.slice();
    let residue_keys = records.residue_keys.slice();
    let residue_names = records.residue_names.slice();
    let residue_codes = records.residue_codes.slice();
    let residue_categories = records.residue_categories.slice();
    let residue_positions = records.residue_positions.slice();
    let atom_keys = records.atom_keys.slice();
    let atom_names = records.atom_names.slice();
    let elements = records.elements.slice();
    let positions = records.positions.slice();
    let occupancies = records.occupancies.slice();
    // SAFETY: the function reads the slices, and writes `out` and `numbers` alone, which are distinct
    // from them.
    unsafe {
        probe_write(
            numbers.as_mut_ptr(),
            numbers.len(),
            chains.as_ptr(),
            chains.len(),
            residue_keys.as_ptr(),
            residue_keys.len(),
            residue_names.as_ptr(),
            residue_names.len(),
            residue_codes.as_ptr(),
            residue_codes.len(),
            residue_categories.as_ptr(),
            residue_categories.len(),
            residue_positions.as_ptr(),
            residue_positions.len(),
            atom_keys.as_ptr(),
            atom_keys.len(),
            atom_names.as_ptr(),
            atom_names.len(),
            elements.as_ptr(),
            elements.len(),
            positions.as_ptr(),
            positions.len(),
            occupancies.as_ptr(),
            occupancies.len(),
            model.chains,
            model.residues,
            model.atoms,
            out.as_mut_ptr(),
            out.len(),
        );
    }
    match numbers {
        [0, 0, written] => Writing::Written(written as usize),
        [number, detail, _] => Writing::Refused(number, detail),
    }
}

/// A packed name has its first byte highest, and zeros after its last.
pub fn unpacked(name: u64) -> String {
    let bytes = name.to_be_bytes();
    String::from_utf8_lossy(&bytes)
        .trim_end_matches('\0')
        .to_string()
}
