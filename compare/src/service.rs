//! The two exported calls of `libstructure_intake.a`, through C conventions: a slice is a pointer and a
//! length. `include/structure_intake.h` has their promises.
use crate::records::{Chain, Records};

/// How many bytes a result has.
pub const RESULT_BYTES: usize = 28;

unsafe extern "C" {
    fn structure_intake(
        text: *const u8,
        text_length: usize,
        out: *mut u8,
        out_length: usize,
        result: *mut u8,
        result_length: usize,
    ) -> u32;
    fn structure_intake_lent(
        text: *const u8,
        text_length: usize,
        out: *mut u8,
        out_length: usize,
        result: *mut u8,
        result_length: usize,
        chains: *mut Chain,
        chains_length: usize,
        residue_keys: *mut u64,
        residue_keys_length: usize,
        residue_names: *mut u64,
        residue_names_length: usize,
        residue_codes: *mut u8,
        residue_codes_length: usize,
        residue_categories: *mut u8,
        residue_categories_length: usize,
        residue_positions: *mut u8,
        residue_positions_length: usize,
        atom_keys: *mut u64,
        atom_keys_length: usize,
        atom_names: *mut u64,
        atom_names_length: usize,
        elements: *mut u8,
        elements_length: usize,
        positions: *mut [f64; 3],
        positions_length: usize,
        occupancies: *mut f64,
        occupancies_length: usize,
    ) -> u32;
}

/// Takes the text in with the service's own records.
pub fn intake(text: &[u8], out: &mut [u8], result: &mut [u8]) -> u32 {
    // SAFETY: the function reads the bytes of `text`, and writes `out` and `result` alone, which are
    // distinct.
    unsafe {
        structure_intake(
            text.as_ptr(),
            text.len(),
            out.as_mut_ptr(),
            out.len(),
            result.as_mut_ptr(),
            result.len(),
        )
    }
}

/// Takes the text in with these records.
pub fn intake_lent(text: &[u8], out: &mut [u8], result: &mut [u8], records: &mut Records) -> u32 {
    let chains = records.chains.slice();
    let residue_keys = records.residue_keys.slice();
    let residue_names = records.residue_names.slice();
    let residue_codes = records.residue_codes.slice();
    let residue_categories = records.residue_categories.slice();
    let residue_positions = records.residue_positions.slice();
    let atom_keys = records.atom_keys.slice();
    let atom_names = records.atom_names.slice();
    let elements = records.elements.slice();
    let positions = records.positions.slice();
    let occupancies = records.occupancies.slice();
    // SAFETY: the function reads the bytes of `text`, and writes `out`, `result` and the slices
    // alone, which are all distinct.
    unsafe {
        structure_intake_lent(
            text.as_ptr(),
            text.len(),
            out.as_mut_ptr(),
            out.len(),
            result.as_mut_ptr(),
            result.len(),
            chains.as_mut_ptr(),
            chains.len(),
            residue_keys.as_mut_ptr(),
            residue_keys.len(),
            residue_names.as_mut_ptr(),
            residue_names.len(),
            residue_codes.as_mut_ptr(),
            residue_codes.len(),
            residue_categories.as_mut_ptr(),
            residue_categories.len(),
            residue_positions.as_mut_ptr(),
            residue_positions.len(),
            atom_keys.as_mut_ptr(),
            atom_keys.len(),
            atom_names.as_mut_ptr(),
            atom_names.len(),
            elements.as_mut_ptr(),
            elements.len(),
            positions.as_mut_ptr(),
            positions.len(),
            occupancies.as_mut_ptr(),
            occupancies.len(),
        )
    }
}
