//! What the published Rust answers, with the rule of reach laid over it: the Rust has no limits.
use crate::probe::Number;
use crate::reach;
use crate::texts::{self, Text};
use published::io::context::IoContext;
use published::io::error::Error;
use published::io::mmcif::{reader, writer};
use published::model::atom::Atom;
use published::model::chain::Chain;
use published::model::residue::Residue;
use published::model::structure::Structure;
use published::model::types::{Element, Point, ResidueCategory, StandardResidue};
use std::ops::Range;
use std::sync::LazyLock;

/// The columns of `_atom_site.Cartn_x`, `Cartn_y` and `Cartn_z` in a written row.
const COORDINATES: Range<usize> = 10..13;
const ATOMS_IN_A_RESIDUE: usize = 1000;

/// The headers of the rows that are made here, the sequence number in the last column.
const HEADERS: &str = "loop_
_atom_site.group_PDB
_atom_site.Cartn_x
_atom_site.Cartn_y
_atom_site.Cartn_z
_atom_site.label_atom_id
_atom_site.label_comp_id
_atom_site.label_asym_id
_atom_site.label_seq_id
";
const ROWS_IN_A_TEXT: usize = 1000;

/// The published tables of residue names, made once: a text is read in less time than they take.
pub static CONTEXT: LazyLock<IoContext> = LazyLock::new(IoContext::new_default);

/// The published Rust reads `str`, so a text that is not UTF-8 is outside its grammar.
pub fn number(text: &[u8]) -> Number {
    let Ok(text) = str::from_utf8(text) else {
        return Number::OutsideGrammar;
    };
    match reader::coordinate(text) {
        Err(_) => Number::OutsideGrammar,
        Ok(_) if !reach::holds_for_text(text) => Number::BeyondReach,
        Ok(value) => Number::Value(value),
    }
}

/// The text that the published writer gives each number, or `beyond`.
pub fn printed(numbers: &[f64]) -> Vec<String> {
    let texts = written(numbers).into_iter().zip(numbers);
    let answers = texts.map(|(text, &x)| {
        if reach::holds_for_double(x) {
            text
        } else {
            "beyond".to_string()
        }
    });
    answers.collect()
}

/// Each number as the writer prints it in a row of atoms.
fn written(numbers: &[f64]) -> Vec<String> {
    let text = written_text(&structure_of(numbers));
    let rows = text.lines().filter(|line| line.starts_with("HETATM "));
    let columns = rows.flat_map(|row| row.split(' ').take(COORDINATES.end).skip(COORDINATES.start));
    let texts: Vec<String> = columns.take(numbers.len()).map(str::to_string).collect();
    assert_eq!(texts.len(), numbers.len(), "each number has its column");
    texts
}

/// Atoms at the given numbers, three to an atom; what the last one lacks is 0.
fn structure_of(numbers: &[f64]) -> Structure {
    let mut chain = Chain::new("A");
    let atoms: Vec<&[f64]> = numbers.chunks(COORDINATES.len()).collect();
    for (place, atoms) in atoms.chunks(ATOMS_IN_A_RESIDUE).enumerate() {
        let mut residue = Residue::new(place as i32, None, "LIG", None, ResidueCategory::Hetero);
        for (place, position) in atoms.iter().enumerate() {
            let axis = |axis: usize| position.get(axis).copied().unwrap_or(0.0);
            let point = Point::new(axis(0), axis(1), axis(2));
            residue.add_atom(Atom::new(&place.to_string(), Element::C, point));
        }
        chain.add_residue(residue);
    }
    Structure::from_iter([chain])
}

/// The structure as the published writer writes it.
pub fn written_text(structure: &Structure) -> String {
    let mut text = Vec::new();
    writer::write_structure(&mut text, structure).expect("a vector takes all bytes");
    String::from_utf8(text).expect("the writer writes text")
}

/// What the published reader makes of the text, if it does not refuse it.
pub fn structure(text: &str) -> Option<Structure> {
    read(text.as_bytes()).ok()
}

pub fn read(text: &[u8]) -> Result<Structure, Error> {
    reader::read(text, &CONTEXT)
}

/// The tokens of a line, found as `read` finds them.
pub fn tokens(line: &[u8]) -> Vec<String> {
    let trimmed = text(line).trim();
    if trimmed.is_empty() || trimmed.starts_with('#') {
        return Vec::new();
    }
    reader::tokens(trimmed)
}

/// Which item the header names; past the last where it names none.
pub fn item(header: &[u8]) -> usize {
    let columns = reader::columns(&[text(header).to_string()]);
    let named = columns.iter().position(|column| column.is_some());
    named.unwrap_or(columns.len())
}

/// The sequence numbers that the published reader gives rows with these tokens, moved up by 2^31.
pub fn sequences(tokens: &[Text]) -> Vec<u32> {
    tokens
        .chunks(ROWS_IN_A_TEXT)
        .flat_map(sequences_of_a_text)
        .collect()
}

/// Each row has a chain of its own, and chains keep the order of the rows.
fn sequences_of_a_text(tokens: &[Text]) -> Vec<u32> {
    let rows = tokens
        .iter()
        .enumerate()
        .map(|(place, token)| format!("HETATM 0 0 0 C LIG {place} {}\n", quoted(token)));
    let text = HEADERS.to_string() + &rows.collect::<String>();
    let structure = structure(&text).expect("the rows have all that is asked for");
    let residues = structure.iter_chains().flat_map(Chain::iter_residues);
    let numbers: Vec<u32> = residues
        .map(|residue| residue.id.abs_diff(i32::MIN))
        .collect();
    assert_eq!(numbers.len(), tokens.len(), "each token has its row");
    numbers
}

pub fn quoted(name: &[u8]) -> String {
    writer::quoted(text(name))
}

/// The canonical name and the standard residue of each name that has them.
pub fn resolved(names: &[Text]) -> Vec<Option<(String, StandardResidue)>> {
    let answers = names.iter().map(|name| {
        let (canonical, standard) = CONTEXT.classify_residue(text(name));
        standard.map(|standard| (canonical, standard))
    });
    answers.collect()
}

/// Every name of the published tables, in order.
pub fn table_names() -> Vec<Text> {
    let names = CONTEXT.names();
    texts::distinct(names.into_iter().map(Text::from).collect())
}

/// The atomic number, 0 where the published Rust knows no element.
pub fn element(symbol: &[u8]) -> u8 {
    read_element(text(symbol)) as u8
}

pub fn symbol(number: u8) -> &'static str {
    read_element(&number.to_string()).symbol()
}

/// The element as the enum spells it.
pub fn spelling(number: u8) -> String {
    format!("{:?}", read_element(&number.to_string()))
}

fn read_element(symbol: &str) -> Element {
    symbol.parse().expect("the published Rust reads every text")
}

/// The published Rust reads `str`, which all that may stand on a line is.
pub fn text(bytes: &[u8]) -> &str {
    str::from_utf8(bytes).expect("what may stand on a line is ASCII")
}
