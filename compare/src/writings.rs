//! The text that a structure must have: the published writer's, with what differs laid over it: no cell
//! block, `X` for what is no element, and no text at all for a name or a code that none can hold.
use crate::answers;
use crate::structures::Model;
use published::model::structure::Structure;

/// The id of the first atom that could not be read again as it is: a name with both quotes, or an
/// insertion code that is a blank, a quote, or a sign for none.
pub fn first_unwritable(structure: &Structure) -> Option<usize> {
    let has_both = |name: &str| name.contains('\'') && name.contains('"');
    let mut id = 1;
    for chain in structure.iter_chains() {
        for residue in chain.iter_residues() {
            let code = residue.insertion_code;
            let code_is_lost = matches!(code, Some(' ' | '\t' | '\'' | '"' | '.' | '?'));
            for atom in residue.iter_atoms() {
                let names = [&*chain.id, &*residue.name, &*atom.name];
                if code_is_lost || names.into_iter().any(has_both) {
                    return Some(id);
                }
                id += 1;
            }
        }
    }
    None
}

/// The published text with our symbol for no element, and without its cell block.
pub fn text(structure: &Structure) -> String {
    let published = answers::written_text(structure);
    let mut in_cell = false;
    let lines = published.split_inclusive('\n').filter(|line| {
        let of_cell = line.starts_with("_cell.") || (in_cell && *line == "#\n");
        in_cell = line.starts_with("_cell.");
        !of_cell
    });
    lines.map(with_our_symbol).collect()
}

/// Only rows of atoms begin so; their third column is the symbol.
fn with_our_symbol(line: &str) -> String {
    let columns: Vec<&str> = line.splitn(4, ' ').collect();
    match columns[..] {
        [group @ ("ATOM" | "HETATM"), id, "Unknown", rest] => format!("{group} {id} X {rest}"),
        _ => line.to_string(),
    }
}

/// The columns of the coordinates in a written row, with the fields before them.
const FIELDS: usize = 13;

/// The model with each coordinate as a written row of the text says it, read by the published Rust.
pub fn as_printed(model: &Model, text: &[u8]) -> Model {
    let mut model = model.clone();
    let text = answers::text(text);
    let rows = text
        .lines()
        .filter(|line| line.starts_with("ATOM ") || line.starts_with("HETATM "));
    for (atom, row) in model.atoms.iter_mut().zip(rows) {
        let tokens = answers::tokens(row.as_bytes());
        let coordinates = &tokens[FIELDS - 3..FIELDS];
        for (bits, coordinate) in atom.position.iter_mut().zip(coordinates) {
            let number: f64 = coordinate.parse().expect("a row has three coordinates");
            *bits = number.to_bits();
        }
    }
    model
}
