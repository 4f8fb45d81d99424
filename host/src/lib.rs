//! A structure intake that can be trusted: mmCIF text in; chains, residues and atoms out, or a
//! refusal by number, line and detail. What is called is the proved library; this crate lends it
//! buffers and reads its answers.
//!
//! [`intake`] takes in small texts, of at most 64 chains, 512 residues and 1,024 atoms, with no
//! memory but the caller's output:
//!
//! ```
//! let text = include_bytes!("../../examples/case.cif");
//! let mut out = [0; 1024];
//! let report = structure_intake::intake(text, &mut out).unwrap();
//! assert_eq!(&out[..report.bytes_written], include_bytes!("../../examples/case.out.cif"));
//! // Three rows: two of one atom, and one whose occupancy is `?`.
//! assert_eq!((report.rows, report.outdone, report.assumed), (3, 1, 1));
//! ```
//!
//! A [`Room`] owns records of any size and holds the model afterwards:
//!
//! ```
//! use structure_intake::Room;
//!
//! let text = include_bytes!("../../examples/case.cif");
//! let mut room = Room::for_text(text);
//! let (report, out) = room.intake_whole(text).unwrap();
//! assert_eq!(out, include_bytes!("../../examples/case.out.cif"));
//! assert_eq!(room.atoms().len(), report.atoms());
//! for residue in room.residues().filter(|residue| residue.name == "MET") {
//!     let symbols: Vec<&str> = room.atoms_of(&residue).map(|atom| atom.symbol()).collect();
//!     assert_eq!(symbols, ["C"]);
//! }
//! ```
//!
//! A text that is not taken in says why:
//!
//! ```
//! let text = b"loop_\n_atom_site.label_atom_id\nCA\n";
//! let refusal = structure_intake::intake(text, &mut []).unwrap_err();
//! assert_eq!((refusal.number, refusal.line, refusal.detail), (5, 3, 2));
//! assert_eq!(refusal.to_string(), "line 3: there is no column for the residue name");
//! ```
#![deny(missing_docs)]

mod call;
mod codes;
mod limits;
mod model;
mod name;
mod records;
mod refusal;
mod report;
mod room;
mod symbols;

pub use codes::{Category, Position, STANDARD_RESIDUES};
pub use limits::{LONGEST_TEXT, MOST_ATOMS, MOST_CHAINS, MOST_RESIDUES};
pub use model::{Atom, Chain, Key, Residue};
pub use name::Name;
pub use refusal::Refusal;
pub use report::Report;
pub use room::Room;

/// Takes in a text of at most 64 chains, 512 residues and 1,024 atoms, and writes it to the start of
/// `out`. All other bytes of `out` stay as they were; after a refusal all of them do.
pub fn intake(text: &[u8], out: &mut [u8]) -> Result<Report, Refusal> {
    let mut result = [0; call::RESULT_BYTES];
    let answer = call::intake(text, out, &mut result);
    report::of_answer(answer, &result)
}
