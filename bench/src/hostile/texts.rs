//! Texts that fill the domain, each in a way that could take long: as many rows as there may be, in orders
//! that are hard for what keeps records in order, and lines of one sort to the greatest size of a text.
use compare::loops;
use compare::places::Order;
use compare::readings::{LONGEST_LINE, LONGEST_TEXT, MOST_HEADERS};
use compare::records::Room;
use compare::shapes::Shape;

/// What a text is made from, but for the number of its lines.
#[derive(Clone, Copy)]
pub enum Kind {
    /// Each row an atom of its own, at most so many.
    Atoms(Shape, usize, Order),
    Lines(Lines),
}

/// A line to each number, below these columns. The rows are of one atom each, of at most so many residues.
#[derive(Clone, Copy)]
pub struct Lines {
    columns: fn() -> Vec<String>,
    line: fn(usize) -> String,
    residues: usize,
}

pub struct Text {
    pub text: String,
    pub rows: usize,
    /// Just enough.
    pub room: Room,
}

/// Atoms in large residues, so that a row is short, and in small ones; residues of one atom; many chains.
const LARGE: (Shape, usize) = (shape(10, 7_490), Room::GREATEST.atoms);
const SMALL: (Shape, usize) = (shape(1_000, 16), 1_024_000);
const ONE: (Shape, usize) = (shape(Room::GREATEST.residues, 1), Room::GREATEST.residues);
const CHAINS: (Shape, usize) = (shape(16, 16), Room::GREATEST.atoms);

/// How many residues the quoted rows have: so few that they cost little.
const FEW: usize = 1_000;

pub const TEXTS: [(&str, Kind); 19] = [
    ("shortest rows in order", atoms(LARGE, Order::Ascending)),
    ("shortest rows backwards", atoms(LARGE, Order::Backwards)),
    ("shortest rows in no order", atoms(LARGE, Order::Shuffled)),
    (
        "shortest rows from the middle outwards",
        atoms(LARGE, Order::Outwards),
    ),
    (
        "residues of 16 atoms in no order",
        atoms(SMALL, Order::Shuffled),
    ),
    (
        "residues of one atom in no order",
        atoms(ONE, Order::Shuffled),
    ),
    (
        "chains in turn",
        atoms(CHAINS, Order::Runs(Room::GREATEST.chains)),
    ),
    ("chains in no order", atoms(CHAINS, Order::Shuffled)),
    ("16 runs in turn", atoms(LARGE, Order::Runs(16))),
    (
        "16 runs in turn, every other one backwards",
        atoms(LARGE, Order::RunsBothWays(16)),
    ),
    ("4,000 runs in turn", atoms(LARGE, Order::Runs(4_000))),
    ("one atom again and again", rows(loops::fewest, same, 1)),
    (
        "one atom, each time with a greater occupancy",
        rows(with_occupancy, rising, 1),
    ),
    ("blank lines", others(|_| String::new())),
    ("comments", others(|_| "#".to_string())),
    ("headers again and again", others(headers)),
    ("quoted tokens", rows(loops::fewest, quoted, FEW)),
    (
        "lines of 2,048 bytes, short tokens",
        rows(loops::fewest, short_tokens, LONGEST_TEXT),
    ),
    (
        "lines of 2,048 bytes, a long token",
        rows(loops::fewest, long_token, LONGEST_TEXT),
    ),
];

const fn shape(residues: usize, atoms: usize) -> Shape {
    Shape { residues, atoms }
}

const fn atoms((shape, most): (Shape, usize), order: Order) -> Kind {
    Kind::Atoms(shape, most, order)
}

const fn rows(columns: fn() -> Vec<String>, line: fn(usize) -> String, residues: usize) -> Kind {
    Kind::Lines(Lines {
        columns,
        line,
        residues,
    })
}

/// Lines that are no rows.
const fn others(line: fn(usize) -> String) -> Kind {
    rows(Vec::new, line, 0)
}

impl Kind {
    /// The text, with at most so many lines behind the columns.
    pub fn text(&self, most: usize) -> Text {
        match *self {
            Self::Atoms(shape, atoms, order) => {
                let (count, chains) = (atoms.min(most), shape.room(atoms).chains);
                let places = order.places(count).into_iter();
                let line = |place| row(&shape, chains, place);
                let (text, rows) = filled(&loops::fewest(), places.map(line));
                assert_eq!(rows, count, "all rows fit in");
                let room = shape.room(rows);
                Text { text, rows, room }
            }
            Self::Lines(lines) => {
                let (text, count) = filled(&(lines.columns)(), (0..most).map(lines.line));
                let residues = count.min(lines.residues);
                let room = Room {
                    chains: residues.min(1),
                    residues,
                    atoms: residues,
                };
                let rows = if residues == 0 { 0 } else { count };
                Text { text, rows, room }
            }
        }
    }
}

/// The lines below these columns, as far as the greatest size of a text allows, and how many these are.
fn filled(columns: &[String], lines: impl Iterator<Item = String>) -> (String, usize) {
    let mut text = String::with_capacity(LONGEST_TEXT);
    if !columns.is_empty() {
        text = text + "loop_\n" + &columns.join("\n") + "\n";
    }
    let mut count = 0;
    for line in lines {
        if text.len() + line.len() + 1 > LONGEST_TEXT {
            break;
        }
        text = text + &line + "\n";
        count += 1;
    }
    (text, count)
}

/// The row of the atom at that place in the order of the records.
fn row(shape: &Shape, chains: usize, place: usize) -> String {
    let [chain, residue, atom] = shape.parts(place);
    let (atom, chain) = (name(atom, shape.atoms), name(chain, chains));
    format!("{atom} A {chain} {residue} 0 0 0")
}

/// The shortest name of a number, of so many, names in the order of their numbers.
fn name(number: usize, of: usize) -> String {
    // No byte that means something at the start of a token or as the whole of one.
    let plain = |byte: &u8| !b"\"'#_;.?".contains(byte);
    let bytes: Vec<u8> = (b'!'..=b'~').filter(plain).collect();
    let byte = |place: usize| char::from(bytes[place]);
    if of <= bytes.len() {
        return byte(number).to_string();
    }
    let (first, second) = (number / bytes.len(), number % bytes.len());
    [byte(first), byte(second)].iter().collect()
}

fn with_occupancy() -> Vec<String> {
    let mut columns = loops::fewest();
    columns.extend(loops::atom_items("occupancy"));
    columns
}

fn same(_: usize) -> String {
    "P A A 1 0 0 0".to_string()
}

/// Up to the greatest number within reach.
fn rising(number: usize) -> String {
    format!("{} {}", same(number), number.min(1_000_000))
}

/// As many headers as a loop may have, and the next loop. None of them is an item, though they look like one.
fn headers(number: usize) -> String {
    match number % (MOST_HEADERS + 1) {
        0 => "loop_".to_string(),
        _ => "_atom_site.pdbx_PDB_ins_cod_".to_string(),
    }
}

fn quoted(number: usize) -> String {
    let residue = number % FEW;
    let more = "'' 'a b' \"c\" ".repeat(8);
    format!("'P' 'A' 'A' '{residue}' '0' '0' '0' {more}")
}

fn short_tokens(number: usize) -> String {
    longest(number, "x ")
}

fn long_token(number: usize) -> String {
    longest(number, "x")
}

/// A row of a residue of its own, with more behind it up to the greatest length of a line.
fn longest(residue: usize, more: &str) -> String {
    let mut line = format!("P A A {residue} 0 0 0 ") + &more.repeat(LONGEST_LINE);
    line.truncate(LONGEST_LINE);
    line
}
