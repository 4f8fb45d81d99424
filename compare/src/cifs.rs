//! Small mmCIF texts to read, in families: what columns, loops, rows, names, numbers and damage
//! could get wrong. Each text has a number, which is all that it is made from.
use crate::answers::quoted;
use crate::decimals;
use crate::loops::{self, Loop, joined};
use crate::random::Random;
use crate::readings::{LONGEST_LINE, MOST_HEADERS};
use crate::sites::{self, Habits};
use crate::texts::{self, Text};
use crate::tokens::{self, ITEMS};
use std::env;

/// How many texts are read where READINGS does not say.
const COUNT: usize = 100_000;
const FIRST_SEED: u64 = 1 << 40;

/// One after the other, so that their shares are those of this list.
const FAMILIES: [fn(&mut Random) -> Text; 26] = [
    usual,
    usual,
    usual,
    usual,
    usual,
    alternates,
    alternates,
    residues,
    residues,
    residues,
    among_other_loops,
    among_other_loops,
    other_columns,
    other_columns,
    many_headers,
    uneven_rows,
    other_names,
    other_numbers,
    other_numbers,
    other_sequences,
    faulty_row,
    long_line,
    byte_outside,
    damaged_byte,
    damaged_byte,
    damaged_line,
];

/// Items of other loops, and one that only looks like an atom's.
const OTHER_ITEMS: [&str; 5] = [
    "_atom_type.symbol",
    "_entity.id",
    "_atom_site_anisotrop.id",
    "_struct.title",
    "_pdbx.x",
];
/// Lines that may stand between loops.
const BETWEEN: [&str; 13] = [
    "",
    "  \t ",
    "#",
    "  # a remark",
    "data_TEST",
    "_cell.length_a 10.0",
    "_cell_measurement.temp 100",
    "_cell.length_a",
    "_cell.angle_beta 90",
    "_entry.id TEST",
    "_struct.title 'a b c'",
    "''",
    "\"\" ''",
];
const NAMES: [&str; 17] = [
    "ABCDEFGH",
    "ABCDEFGHI",
    "ABCDEFG",
    "'",
    "O5' x",
    "H2\"",
    "_a",
    "loop_",
    "#a",
    ";",
    "a b c d",
    "12345678",
    "123456789",
    ".",
    "?",
    "_cell.",
    "A\tB",
];

/// What a row is refused or skipped for, and the columns where it is.
const FAULTS: [(&str, &str); 11] = [
    ("Cartn_x", "1e3"),
    ("Cartn_x", "x"),
    ("Cartn_y", "1000000.1"),
    ("Cartn_y", "1.2.3"),
    ("Cartn_z", "nan"),
    ("Cartn_z", "--1"),
    ("Cartn_z", "?"),
    ("occupancy", "inf"),
    ("atom_id", "ABCDEFGHI"),
    ("comp_id", "ABCDEFGHIJ"),
    ("asym_id", "ABCDEFGHIJK"),
];

/// Texts with next to nothing in them, and document 01's whole case.
const EDGES: [&str; 18] = [
    "",
    "\n",
    "\r\n",
    " ",
    "#",
    "''",
    "loop_",
    "loop_\n",
    "loop_\nx\n",
    "_atom_site.id 1\n",
    "loop_\n_atom_site.id",
    "loop_\n_atom_site.id\n1",
    "loop_\n_atom_site.id\n_cell.x 1\nloop_\n1\n",
    "loop_\n_atom_site.\nloop_\n_a\nx",
    "data_x\nATOM 1 C CA\n",
    "x y z\r\n\n\n \t\n",
    "loop_ _atom_site.id\n1\n",
    "loop_
_atom_site.group_PDB
_atom_site.type_symbol
_atom_site.auth_atom_id
_atom_site.auth_comp_id
_atom_site.auth_asym_id
_atom_site.auth_seq_id
_atom_site.Cartn_x
_atom_site.Cartn_y
_atom_site.Cartn_z
_atom_site.occupancy
ATOM C CA MSE A 7 1.5 -0.0004 2 0.6
ATOM C CA MSE A 7 9 9 9 0.6
HETATM O \"O'\" QQQ A 9 0.25 0 -3 ?
",
];

/// The columns of the cases.
const CASE_COLUMNS: &str = "group_PDB type_symbol auth_atom_id auth_comp_id auth_asym_id \
    auth_seq_id pdbx_PDB_ins_code Cartn_x Cartn_y Cartn_z occupancy";
/// Rows that show one rule each: which row of an atom is kept, what a residue is by its first row,
/// its atoms and its place, and what each cell may hold.
const CASES: [&str; 24] = [
    "ATOM C CA MET A 7 ? 1 2 3 0.5\nATOM C CA MET A 7 ? 4 5 6 .50\n",
    "ATOM C CA MET A 7 ? 1 2 3 0.5\nATOM N CA MET A 7 ? 4 5 6 0.51\n",
    "ATOM C CA MET A 7 ? 1 2 3 ?\nATOM C CA MET A 7 ? 4 5 6 1\nATOM C CA MET A 7 ? 7 8 9 1.1\n",
    "ATOM C CA MET A 7 ? 1 2 3 -1\nATOM C CA MET A 7 ? 4 5 6 -0\nATOM C CA MET A 7 ? 7 8 9 0\n",
    "ATOM C CA MSE A 7 ? 1 2 3 1\nHETATM C CB QQQ A 7 ? 4 5 6 1\n",
    "hetatm C CA QQQ A 7 ? 1 2 3 1\nATOM C CB QQQ A 7 ? 4 5 6 1\n",
    "HETATM Zn ZN ZN A 7 ? 1 2 3 .5\nHETATM Zn ZN ZN A 7 ? 4 5 6 1\n",
    "ATOM C CA QQQ A 7 ? . 2 3 1\nATOM C CA ALA A 7 ? 4 5 6 1\n",
    "ATOM C CA QQQ A 7 ? 1 2 3 1\nHETATM C CB QQQ A 7 ? 4 5 6 1\n",
    "ATOM C CA ALA B 5 ? 1 2 3 1\nATOM C CA GLY A 0 ? 4 5 6 1\nATOM C CA SER B -3 ? 7 8 9 1\n",
    "ATOM C CA ALA A 5 B 1 2 3 1\nATOM C CA GLY A 5 ? 4 5 6 1\nATOM C CA SER A 5 A 7 8 9 1\n",
    "ATOM C CA ALA A 1 ? 1 2 3 1\nATOM C CA GLY A 2 ? 4 5 6 1\nATOM C CA SER A 3 ? 7 8 9 1\n",
    "ATOM P P DA A 1 ? 1 2 3 1\nATOM P P DC A 2 ? 4 5 6 1\nATOM P P DG A 3 ? 7 8 9 1\n",
    "ATOM C CA ALA A 1 ? 1 2 3 1\nATOM P P A A 2 ? 4 5 6 1\nHETATM O O HOH A 3 ? 7 8 9 1\n",
    "HETATM O O WAT A 1 ? 1 2 3 1\nATOM P P DT A 2 ? 4 5 6 1\nHETATM C C1 QQQ A 3 ? 7 8 9 1\n",
    "ATOM C CA ALA . 7 ? 1 2 3 1\nATOM C CA GLY ? 8 ? 4 5 6 1\nATOM C CA SER '.' 9 ? 7 8 9 1\n",
    "ATOM C CA ALA A . ? 1 2 3 1\nATOM C CB ALA A 1 . 4 5 6 1\nATOM C C ALA A 2147483648 ? 7 8 9 1\n",
    "ATOM C CA ALA A +5 ?? 1 2 3 1\nATOM C CB ALA A 5 ?A 4 5 6 1\nATOM C C GLY A -0 .. 7 8 9 1\n",
    "ATOM C CA ALA A -2147483648 Z 5. .5 -0 1\nATOM C CB ALA A 2147483647 9 +1 00.125 -0.000 1\n",
    "HETATM C \"O5' x\" 'a b' \"A'\" 7 ? 1000000 -1000000.0 123456.789012345 1\n",
    "HETATM C A\\B \\n A\\ 7 \\ 1 2 3 1\n",
    "ATOM C CA MET A 7 ? 1 2 3\n",
    "ATOM C CA MET A 7 ? 1 2 3 1\nATOM C CB MET A 7 ? 1 1.2.3 z 1\n",
    "ATOM C CA MET A 7 ? 1 2 3 1 more of it\n#\nATOM C CB MET A 7 ? ? x y 1\n",
];

pub fn edges() -> Vec<Text> {
    EDGES.map(Text::from).to_vec()
}

pub fn cases() -> Vec<Text> {
    let headers = loops::atom_items(CASE_COLUMNS).join("\n");
    let cases = CASES.map(|rows| format!("loop_\n{headers}\n{rows}").into_bytes());
    cases.to_vec()
}

/// How many texts there are.
pub fn count() -> usize {
    let told = env::var("READINGS").ok();
    told.map_or(COUNT, |count| count.parse().expect("READINGS is a number"))
}

/// The text of that number.
pub fn text(number: usize) -> Text {
    let mut random = Random::new(FIRST_SEED + number as u64);
    FAMILIES[number % FAMILIES.len()](&mut random)
}

fn usual(random: &mut Random) -> Text {
    Loop::new(random, &sites::USUAL).text(random)
}

fn alternates(random: &mut Random) -> Text {
    Loop::new(random, &sites::ALTERNATES).text(random)
}

fn residues(random: &mut Random) -> Text {
    Loop::new(random, &sites::RESIDUES).text(random)
}

/// One or two loops of atoms, each with columns of its own, with other loops and other lines
/// before, behind and, where nothing ends a loop, inside.
fn among_other_loops(random: &mut Random) -> Text {
    let mut lines = between(random);
    for _ in 0..=random.below(2) {
        let mut atoms = Loop::new(random, &sites::USUAL).lines(random);
        for _ in 0..random.below(3) {
            let place = random.place(atoms.len() + 1);
            let harmless = ["", "#", " # b", "_cell.length_b 1 2", "''", "\t"];
            atoms.insert(place, random.pick(&harmless).to_string());
        }
        lines.extend(atoms);
        // What would be a short row is rarely let stand behind the rows.
        if random.below(8) != 0 {
            lines.push(
                random
                    .pick(&["loop_", "_entry.id A", "'loop_' x"])
                    .to_string(),
            );
        }
        lines.extend(between(random));
    }
    joined(random, &lines)
}

fn between(random: &mut Random) -> Vec<String> {
    let mut lines = Vec::new();
    for _ in 0..random.below(4) {
        if random.below(2) == 0 {
            lines.push(random.pick(&BETWEEN).to_string());
            continue;
        }
        lines.push(
            random
                .pick(&["loop_", "loop_", "loop_ _entity.id", "LOOP_"])
                .to_string(),
        );
        for _ in 0..random.below(4) {
            lines.push(random.pick(&OTHER_ITEMS).to_string());
        }
        for _ in 0..random.below(3) {
            lines.push(
                random
                    .pick(&["1 'a b' c", "x", "; y", "ATOM 1"])
                    .to_string(),
            );
        }
    }
    lines
}

/// A column left out, put in again under the same name, or moved without its cells.
fn other_columns(random: &mut Random) -> Text {
    let mut atoms = Loop::new(random, &sites::USUAL);
    for _ in 0..=random.below(2) {
        let column = random.place(atoms.headers.len());
        let other = random.place(atoms.headers.len());
        match random.below(4) {
            0 => {
                atoms.headers.remove(column);
                for row in &mut atoms.rows {
                    row.remove(column);
                }
            }
            1 => {
                atoms
                    .headers
                    .insert(column, random.pick(&ITEMS).to_string());
                for row in &mut atoms.rows {
                    row.insert(
                        column,
                        random.pick(&["1", "A", "?", "HETATM", "2.5"]).to_string(),
                    );
                }
            }
            2 => atoms.headers.swap(column, other),
            _ => {
                let header = random.pick(&["_ATOM_SITE.ID", "_cell.x", "_cell_x", "_atom_site."]);
                atoms.headers[column] = header.to_string();
            }
        }
    }
    atoms.text(random)
}

/// Columns around the greatest number of them, what matters among the last or the first.
fn many_headers(random: &mut Random) -> Text {
    let mut headers = loops::headers(random);
    let count = MOST_HEADERS - 1 + random.below(4) as usize;
    let place = random.place(headers.len() + 1);
    while headers.len() < count {
        headers.insert(place, "_atom_site.padding".to_string());
    }
    Loop::with_headers(random, &sites::ALTERNATES, headers).text(random)
}

/// A row that is cut short or goes on.
fn uneven_rows(random: &mut Random) -> Text {
    let mut atoms = Loop::new(random, &sites::USUAL);
    let row = random.place(atoms.rows.len());
    let row = &mut atoms.rows[row];
    match random.below(4) {
        0 => row.push("more".to_string()),
        1 => row.truncate(row.len() - 1),
        _ => row.truncate(1 + random.place(row.len())),
    }
    atoms.text(random)
}

/// Some names at the greatest length, past it, or such that they look like something else.
fn other_names(random: &mut Random) -> Text {
    let endings = ["atom_id", "comp_id", "asym_id", "ins_code"];
    other_cells(random, &sites::USUAL, &NAMES.map(Text::from), &endings)
}

/// Coordinates or occupancies right at a limit of the grammar or of the reach, or right past it.
fn other_numbers(random: &mut Random) -> Text {
    let endings = ["Cartn_x", "Cartn_y", "Cartn_z", "occupancy"];
    other_cells(random, &sites::USUAL, &decimals::edges(), &endings)
}

/// Sequence numbers right at a limit, or right past it.
fn other_sequences(random: &mut Random) -> Text {
    let sequences = tokens::sequence_edges();
    other_cells(random, &sites::RESIDUES, &sequences, &["seq_id"])
}

/// One to three cells of the columns whose item ends so hold something of the list.
fn other_cells(random: &mut Random, habits: &Habits, list: &[Text], endings: &[&str]) -> Text {
    let mut atoms = Loop::new(random, habits);
    let columns = atoms.columns_of(endings);
    for _ in 0..=random.below(3) {
        let row = random.place(atoms.rows.len());
        let place = random.place(list.len());
        atoms.rows[row][random.pick(&columns)] = quoted(&list[place]);
    }
    atoms.text(random)
}

/// Several faults in one row, of which the first in the order of the rules decides.
fn faulty_row(random: &mut Random) -> Text {
    let mut atoms = Loop::new(random, &sites::USUAL);
    let row = random.place(atoms.rows.len());
    for _ in 0..2 + random.below(3) {
        let (ending, fault) = random.pick(&FAULTS);
        for column in atoms.columns_of(&[ending]) {
            atoms.rows[row][column] = fault.to_string();
        }
    }
    if random.below(8) == 0 {
        atoms.rows[row].pop();
    }
    atoms.text(random)
}

/// A line around the greatest length, by blanks at an end, or by a remark.
fn long_line(random: &mut Random) -> Text {
    let mut lines = Loop::new(random, &sites::USUAL).lines(random);
    let place = random.place(lines.len());
    let length = LONGEST_LINE - 1 + random.below(4) as usize;
    let line = &mut lines[place];
    let padding = random.pick(&[" ", "\t", "#"]).repeat(length - line.len());
    if padding.starts_with('#') || random.below(2) == 0 {
        line.insert_str(0, &padding);
    } else {
        line.push_str(&padding);
    }
    joined(random, &lines)
}

/// A text with one byte put in that is outside the domain, or is 13 where it mostly is outside.
fn byte_outside(random: &mut Random) -> Text {
    let mut text = usual(random);
    let place = random.place(text.len() + 1);
    let byte = random.pick(&[0, 1, 8, 11, 12, 13, 13, 14, 31, 127, 128, 195, 255]);
    text.insert(place, byte);
    text
}

fn damaged_byte(random: &mut Random) -> Text {
    let mut text = any(random);
    for _ in 0..=random.below(2) {
        text = texts::damaged(random, text, b" \n\r\t'\"_.?#;", texts::line_byte);
    }
    text
}

/// A text with one line left out, doubled, or changed with another.
fn damaged_line(random: &mut Random) -> Text {
    let text = any(random);
    let mut lines: Vec<&[u8]> = text.split_inclusive(|&byte| byte == b'\n').collect();
    let place = random.place(lines.len());
    let other = random.place(lines.len());
    match random.below(3) {
        0 => drop(lines.remove(place)),
        1 => lines.insert(other, lines[place]),
        _ => lines.swap(place, other),
    }
    lines.concat()
}

/// A text of one of the families that are damaged.
fn any(random: &mut Random) -> Text {
    random.pick(&[usual, alternates, residues, among_other_loops])(random)
}
