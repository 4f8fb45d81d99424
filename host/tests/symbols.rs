//! The symbol of each element is the one that the proved library reads as that element, and writes.
use structure_intake::{Atom, Room};

const ELEMENTS: usize = 118;

/// A text with an atom to each symbol, named by its place.
fn text(symbols: &[&str]) -> String {
    let mut text = String::from("loop_\n_atom_site.group_PDB\n_atom_site.type_symbol\n");
    for item in ["atom_id", "comp_id", "asym_id", "seq_id"] {
        text += &format!("_atom_site.label_{item}\n");
    }
    text += "_atom_site.Cartn_x\n_atom_site.Cartn_y\n_atom_site.Cartn_z\n";
    for (place, symbol) in symbols.iter().enumerate() {
        text += &format!("HETATM {symbol} {place:03} QQQ A 1 0 0 0\n");
    }
    text
}

fn taken(symbols: &[&str]) -> (Vec<Atom>, String) {
    let text = text(symbols);
    let mut room = Room::for_text(text.as_bytes());
    let (_, written) = room.intake_whole(text.as_bytes()).unwrap();
    (room.atoms().collect(), String::from_utf8(written).unwrap())
}

/// The third column of each row written.
fn written_symbols(written: &str) -> Vec<&str> {
    let rows = written.lines().filter(|line| line.starts_with("HETATM "));
    rows.map(|row| row.split(' ').nth(2).unwrap()).collect()
}

/// Every word that could be a symbol is tried: a capital, alone or with a small letter behind it.
#[test]
fn every_symbol_is_read_and_written_as_its_element() {
    let upper = || ('A'..='Z').map(String::from);
    let two = upper().flat_map(|first| ('a'..='z').map(move |second| format!("{first}{second}")));
    let words: Vec<String> = upper().chain(two).collect();
    let words: Vec<&str> = words.iter().map(String::as_str).collect();
    let (atoms, written) = taken(&words);
    let mut read: Vec<(u8, &str, &str)> = atoms
        .iter()
        .zip(&words)
        .map(|(atom, word)| (atom.element, atom.symbol(), *word))
        .filter(|&(element, ..)| element != 0)
        .collect();
    read.sort();
    let numbers: Vec<usize> = read.iter().map(|&(element, ..)| element.into()).collect();
    assert_eq!(numbers, (1..=ELEMENTS).collect::<Vec<usize>>());
    for (element, symbol, word) in read {
        assert_eq!(symbol, word, "element {element}");
    }
    let symbols: Vec<&str> = atoms.iter().map(Atom::symbol).collect();
    assert_eq!(written_symbols(&written), symbols);
}
