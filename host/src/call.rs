//! The two exported calls of the proved library, and all that is unsafe here: a slice is a pointer
//! and a length. `include/structure_intake.h` has their promises.
use crate::records::{ChainRecord, Records};

pub const RESULT_BYTES: usize = 28;

unsafe extern "C" {
    fn structure_intake(
        text: *const u8,
        text_length: usize,
        out: *mut u8,
        out_length: usize,
        result: *mut u8,
        result_length: usize,
    ) -> u32;
    fn structure_intake_lent(
        text: *const u8,
        text_length: usize,
        out: *mut u8,
        out_length: usize,
        result: *mut u8,
        result_length: usize,
        chains: *mut ChainRecord,
        chains_length: usize,
        residue_keys: *mut u64,
        residue_keys_length: usize,
        residue_names: *mut u64,
        residue_names_length: usize,
        residue_codes: *mut u8,
        residue_codes_length: usize,
        residue_categories: *mut u8,
        residue_categories_length: usize,
        residue_positions: *mut u8,
        residue_positions_length: usize,
        atom_keys: *mut u64,
        atom_keys_length: usize,
        atom_names: *mut u64,
        atom_names_length: usize,
        elements: *mut u8,
        elements_length: usize,
        positions: *mut [f64; 3],
        positions_length: usize,
        occupancies: *mut f64,
        occupancies_length: usize,
    ) -> u32;
}

pub fn intake(text: &[u8], out: &mut [u8], result: &mut [u8; RESULT_BYTES]) -> u32 {
    // SAFETY: the function reads the bytes of `text`, and writes `out` and `result` alone, which are
    // distinct. It keeps none of them.
    unsafe {
        structure_intake(
            text.as_ptr(),
            text.len(),
            out.as_mut_ptr(),
            out.len(),
            result.as_mut_ptr(),
            result.len(),
        )
    }
}

pub fn intake_lent(
    text: &[u8],
    out: &mut [u8],
    result: &mut [u8; RESULT_BYTES],
    records: &mut Records,
) -> u32 {
    // SAFETY: the function reads the bytes of `text`, and writes `out`, `result` and the records'
    // slices alone, which are all distinct. It keeps none of them.
    unsafe {
        structure_intake_lent(
            text.as_ptr(),
            text.len(),
            out.as_mut_ptr(),
            out.len(),
            result.as_mut_ptr(),
            result.len(),
            records.chains.as_mut_ptr(),
            records.chains.len(),
            records.residue_keys.as_mut_ptr(),
            records.residue_keys.len(),
            records.residue_names.as_mut_ptr(),
            records.residue_names.len(),
            records.residue_codes.as_mut_ptr(),
            records.residue_codes.len(),
            records.residue_categories.as_mut_ptr(),
            records.residue_categories.len(),
            records.residue_positions.as_mut_ptr(),
            records.residue_positions.len(),
            records.atom_keys.as_mut_ptr(),
            records.atom_keys.len(),
            records.atom_names.as_mut_ptr(),
            records.atom_names.len(),
            records.elements.as_mut_ptr(),
            records.elements.len(),
            records.positions.as_mut_ptr(),
            records.positions.len(),
            records.occupancies.as_mut_ptr(),
            records.occupancies.len(),
        )
    }
}
