//! The texts that are timed: mmCIF files as the archive writes them, of a given number of rows.
use compare::records::Room;
use compare::{loops, places};
use std::fmt::Write;

/// What each chain of a file has: residues of so many atoms, and waters behind them.
#[derive(Debug, Clone, Copy, PartialEq, Eq)]
pub struct Shape {
    residues: usize,
    atoms: usize,
    waters: usize,
}

/// Chains of protein with their waters.
pub const CHAINS: Shape = Shape {
    residues: 300,
    atoms: ATOMS.len(),
    waters: 100,
};
/// All rows in one chain.
pub const ONE_CHAIN: Shape = Shape {
    residues: Room::GREATEST.residues,
    atoms: ATOMS.len(),
    waters: 0,
};
/// All rows in one chain, each a residue of its own.
pub const RESIDUES: Shape = Shape {
    residues: Room::GREATEST.residues,
    atoms: 1,
    waters: 0,
};

/// The order of the rows. The first two differ in where a chain's waters stand.
#[derive(Debug, Clone, Copy, PartialEq, Eq)]
pub enum Order {
    /// Each chain's waters right behind it: the order of the records but for the atoms of a residue.
    Model,
    /// All waters behind the last chain, as the archive has them.
    Archive,
    /// The rows of the first order in another.
    Rows(places::Order),
}

/// A file to read: all that its text is made from.
#[derive(Debug, Clone, Copy, PartialEq, Eq)]
pub struct File {
    pub shape: Shape,
    pub order: Order,
    pub rows: usize,
}

/// The atoms of a residue in the order of the archive, which is not that of their names.
const ATOMS: [(&str, &str); 8] = [
    ("N", "N"),
    ("CA", "C"),
    ("C", "C"),
    ("O", "O"),
    ("CB", "C"),
    ("CG", "C"),
    ("CD1", "C"),
    ("CD2", "C"),
];
const NAMES: [&str; 5] = ["LEU", "ILE", "PHE", "TYR", "MSE"];
/// What a row of these files has at most, its ending included.
const BYTES_OF_A_ROW: usize = 120;

/// One row: the chain, the residue in it, and the atom in that; a water has no atom but its own.
#[derive(Clone, Copy)]
struct Row {
    chain: usize,
    residue: usize,
    atom: Option<usize>,
}

impl File {
    /// Made row by row, so that nothing but the text takes memory.
    pub fn text(&self) -> String {
        let mut text = String::with_capacity((self.rows + 100) * BYTES_OF_A_ROW);
        text.push_str("data_BENCH\n#\nloop_\n");
        text.push_str(&loops::of_the_archive().join("\n"));
        text.push('\n');
        for (place, row) in self.rows_in_order().enumerate() {
            row.write(&mut text, place + 1);
        }
        text.push_str("#\n");
        text
    }

    /// Just the records that the rows need: each row is an atom of its own.
    pub fn room(&self) -> Room {
        let (mut chains, mut residues) = (0, 0);
        let mut last = None;
        for row in self.rows_of_model() {
            let (chain, residue) = (Some(row.chain), Some((row.chain, row.residue)));
            chains += usize::from(chain != last.map(|(chain, _)| chain));
            residues += usize::from(residue != last);
            last = residue;
        }
        Room {
            chains,
            residues,
            atoms: self.rows,
        }
    }

    fn rows_in_order(&self) -> Box<dyn Iterator<Item = Row>> {
        let rows = self.rows_of_model();
        match self.order {
            Order::Model => Box::new(rows),
            Order::Archive => {
                let waters = rows.clone().filter(|row| row.atom.is_none());
                Box::new(rows.filter(|row| row.atom.is_some()).chain(waters))
            }
            Order::Rows(order) => {
                let shape = self.shape;
                let places = order.places(self.rows).into_iter();
                Box::new(places.map(move |place| shape.row(place)))
            }
        }
    }

    fn rows_of_model(&self) -> impl Iterator<Item = Row> + Clone + use<> {
        let shape = self.shape;
        (0..self.rows).map(move |place| shape.row(place))
    }
}

impl Shape {
    fn row(&self, place: usize) -> Row {
        let of_residues = self.residues * self.atoms;
        let of_a_chain = of_residues + self.waters;
        let (chain, place) = (place / of_a_chain, place % of_a_chain);
        match place.checked_sub(of_residues) {
            None => Row {
                chain,
                residue: place / self.atoms,
                atom: Some(place % self.atoms),
            },
            Some(water) => Row {
                chain,
                residue: self.residues + water,
                atom: None,
            },
        }
    }
}

impl Row {
    /// The row in the archive's columns, each padded to its width.
    fn write(&self, text: &mut String, id: usize) {
        let (group, residue, (atom, symbol)) = match self.atom {
            Some(atom) => ("ATOM", NAMES[self.residue % NAMES.len()], ATOMS[atom]),
            None => ("HETATM", "HOH", ("O", "O")),
        };
        let chain = chain_name(self.chain);
        let sequence = self.residue + 1;
        let label = self.atom.map_or(".".to_string(), |_| sequence.to_string());
        // Coordinates spread over a few hundred ångström, each with its own digits.
        let axis = |step: usize| ((id * step) % 400_000) as f64 / 1000.0 - 200.0;
        let (x, y, z) = (axis(7919), axis(104_729), axis(1_299_709));
        let spread = (id * 31 % 9000) as f64 / 100.0;
        let entity = if self.atom.is_some() { 1 } else { 2 };
        let written = writeln!(
            text,
            "{group:6} {id:<7} {symbol:2} {atom:4} . {residue:3} {chain:3} {entity} {label:5} ? \
             {x:<8.3} {y:<8.3} {z:<8.3} 1.00 {spread:<6.2} ? {sequence:<5} {residue:3} {chain:3} {atom:4} 1 "
        );
        written.expect("a text takes all that is written");
    }
}

/// A, B, .. Z, AA, AB, ..
fn chain_name(place: usize) -> String {
    let letter = char::from(b'A' + (place % 26) as u8);
    match place / 26 {
        0 => letter.to_string(),
        before => chain_name(before - 1) + &letter.to_string(),
    }
}
