//! A text read by the published Rust's own steps, one line after the other, with all laid over them
//! that it lacks: the domain, the limits, the counts, and our rule for elements. So a reading tells
//! which refusal is earned, at which line, and what the records must hold otherwise.
use crate::outcomes::{Counts, Outcome, Reason, Refusal};
use crate::probe::Number;
use crate::records::Room;
use crate::structures::Model;
use crate::{answers, elements};
use published::io::error::Error;
use published::io::mmcif::reader::{self, Rows};
use published::model::structure::Structure;

pub const LONGEST_TEXT: usize = 16_777_216;
pub const LONGEST_LINE: usize = 2_048;
pub const MOST_HEADERS: usize = 64;
const LONGEST_NAME: usize = 8;

/// Where `reader::columns` has the columns that are asked for here.
const AXES: [usize; 3] = [10, 11, 12];
const OCCUPANCY: usize = 13;
const SYMBOL: usize = 14;
/// The auth and the label column of the atom, of the residue and of the chain.
const NAMES: [[usize; 2]; 3] = [[1, 2], [3, 4], [5, 6]];

pub struct Reading {
    pub outcome: Outcome,
    /// Empty after a refusal.
    pub model: Model,
    /// The published structure that the model is of.
    pub structure: Structure,
    /// The bits of the occupancies of the atoms in their order.
    pub occupancies: Vec<u64>,
    /// Whether some row has a symbol that is an element to the published Rust alone.
    pub symbols_differ: bool,
}

/// What the text must give in records of that room.
pub fn read(text: &[u8], room: Room) -> Reading {
    let mut walk = Walk::new(room);
    let outcome = walk.text(text);
    let symbols_differ = walk.symbols_differ;
    let (structure, occupancies) = match outcome {
        Ok(_) => walk.finish(),
        Err(_) => Default::default(),
    };
    Reading {
        outcome: outcome.map_or_else(Outcome::Refused, Outcome::Read),
        model: Model::of_published(&structure),
        structure,
        occupancies,
        symbols_differ,
    }
}

/// The refusal that an error of the published Rust stands for, with the place of the first unknown
/// residue left open.
pub fn refusal_of(error: &Error) -> Option<Refusal> {
    match error {
        Error::Parse {
            line_number,
            details,
            ..
        } => {
            let (reason, detail) = told_by(details)?;
            Some(refusal(reason, *line_number, detail))
        }
        Error::UnknownStandardResidue { .. } => Some(refusal(Reason::UnknownResidue, 0, 0)),
        Error::Io { .. } | Error::InconsistentData { .. } => None,
    }
}

/// The reason and the detail, by the words of the published Rust.
fn told_by(details: &str) -> Option<(Reason, usize)> {
    let columns = [
        "_atom_site loop is missing atom identifier columns",
        "_atom_site loop is missing residue identifier columns",
        "_atom_site loop is missing chain identifier columns",
        "_atom_site loop is missing residue sequence columns",
        "_atom_site.Cartn_x column is required",
        "_atom_site.Cartn_y column is required",
        "_atom_site.Cartn_z column is required",
    ];
    let axes = [
        "Invalid X coordinate",
        "Invalid Y coordinate",
        "Invalid Z coordinate",
    ];
    let number = |words: &[&str]| Some(1 + words.iter().position(|&words| words == details)?);
    if let Some(column) = number(&columns) {
        return Some((Reason::ColumnMissing, column));
    }
    if let Some(axis) = number(&axes) {
        return Some((Reason::OutsideGrammar, axis));
    }
    let short = [
        "Atom record is shorter than declared _atom_site headers",
        "Atom record shorter than _atom_site definition",
    ];
    number(&short).map(|_| (Reason::RowShort, 0))
}

fn refusal(reason: Reason, line: usize, detail: usize) -> Refusal {
    Refusal {
        reason,
        line: line as u64,
        detail: detail as u64,
    }
}

/// The first byte outside the domain: 9, 10, 32 to 126, and 13 only directly before 10.
fn outside_domain(text: &[u8]) -> Option<Refusal> {
    let outside = |place: usize| match text[place] {
        9 | 10 | 32..=126 => false,
        13 => text.get(place + 1) != Some(&10),
        _ => true,
    };
    let place = (0..text.len()).find(|&place| outside(place))?;
    let feeds = text[..place].iter().filter(|&&byte| byte == 10).count();
    let byte = usize::from(text[place]);
    Some(refusal(Reason::OutsideDomain, feeds + 1, byte))
}

/// The lines without their endings; a last line needs none.
fn lines(text: &[u8]) -> impl Iterator<Item = &[u8]> {
    let ended = text.split_inclusive(|&byte| byte == 10);
    ended.map(|line| {
        let line = line.strip_suffix(b"\n").unwrap_or(line);
        line.strip_suffix(b"\r").unwrap_or(line)
    })
}

/// The states of the published `read`.
#[derive(Clone, Copy)]
enum State {
    Base,
    Header,
    AtomLoop,
    OtherLoop,
}

struct Walk {
    room: Room,
    state: State,
    headers: Vec<String>,
    columns: [Option<usize>; 15],
    rows: Rows,
    counts: Counts,
    symbols_differ: bool,
}

impl Walk {
    fn new(room: Room) -> Self {
        let greatest = Room::GREATEST;
        Self {
            room: Room {
                chains: room.chains.min(greatest.chains),
                residues: room.residues.min(greatest.residues),
                atoms: room.atoms.min(greatest.atoms),
            },
            state: State::Base,
            headers: Vec::new(),
            columns: Default::default(),
            rows: Rows::default(),
            counts: Counts::default(),
            symbols_differ: false,
        }
    }

    fn text(&mut self, text: &[u8]) -> Result<Counts, Refusal> {
        if text.len() > LONGEST_TEXT {
            return Err(refusal(Reason::TextTooLong, 0, 0));
        }
        outside_domain(text).map_or(Ok(()), Err)?;
        for (place, line) in lines(text).enumerate() {
            self.line(line, place + 1)?;
        }
        if let Some(place) = self.rows.first_unknown(&answers::CONTEXT) {
            return Err(refusal(Reason::UnknownResidue, 0, place + 1));
        }
        self.counts.chains = self.rows.chain_count() as u64;
        self.counts.residues = self.rows.residue_count() as u64;
        self.counts.atoms = self.rows.atom_count() as u64;
        self.counts.outdone = self.counts.rows - self.counts.skipped - self.counts.atoms;
        Ok(self.counts)
    }

    fn finish(self) -> (Structure, Vec<u64>) {
        let occupancies = self.rows.occupancies().into_iter().map(f64::to_bits);
        let occupancies = occupancies.collect();
        let structure = self.rows.structure(&answers::CONTEXT);
        let structure = structure.expect("there is no unknown residue");
        (structure, occupancies)
    }

    fn line(&mut self, line: &[u8], number: usize) -> Result<(), Refusal> {
        if line.len() > LONGEST_LINE {
            return Err(refusal(Reason::LineTooLong, number, 0));
        }
        let tokens = answers::tokens(line);
        let Some(first) = tokens.first() else {
            return Ok(());
        };
        if first == "loop_" {
            self.state = State::Header;
            self.headers.clear();
            return Ok(());
        }
        if first.starts_with("_cell.") {
            return Ok(());
        }
        match (self.state, first.starts_with('_')) {
            (State::Header, true) => return self.header(first, number),
            (State::Header, false) => self.first_row(),
            (State::AtomLoop | State::OtherLoop, true) => self.state = State::Base,
            _ => {}
        }
        match self.state {
            State::AtomLoop => self.row(tokens, number),
            _ => Ok(()),
        }
    }

    fn header(&mut self, header: &str, number: usize) -> Result<(), Refusal> {
        if self.headers.len() == MOST_HEADERS {
            return Err(refusal(Reason::TooManyHeaders, number, 0));
        }
        self.headers.push(header.to_string());
        Ok(())
    }

    fn first_row(&mut self) {
        let mut headers = self.headers.iter();
        self.state = if headers.any(|header| header.starts_with("_atom_site.")) {
            State::AtomLoop
        } else {
            State::OtherLoop
        };
        self.columns = reader::columns(&self.headers);
    }

    fn row(&mut self, mut tokens: Vec<String>, line: usize) -> Result<(), Refusal> {
        self.take_symbol_by_our_rule(&mut tokens);
        self.counts.rows += 1;
        let added = self.rows.add(&tokens, &self.headers, line);
        let refused = added
            .err()
            .map(|error| refusal_of(&error).expect("a row is refused by a known error"));
        if let Some(refused) = refused
            && refused.reason != Reason::OutsideGrammar
        {
            return Err(refused);
        }
        let token = |column: usize| Some(tokens[self.columns[column]?].as_str());
        let axes = AXES.map(|axis| token(axis).expect("a row without it is refused"));
        // A skipped row is never refused after this, whatever else it holds.
        if axes.iter().any(|axis| matches!(*axis, "." | "?")) {
            self.counts.skipped += 1;
            return Ok(());
        }
        // Each axis is asked for its grammar and then its reach, before the next is.
        let in_grammar = refused.map_or(AXES.len(), |refused| refused.detail as usize - 1);
        let numbers = axes.map(|axis| answers::number(axis.as_bytes()));
        let beyond = |number: &Number| matches!(number, Number::BeyondReach);
        if let Some(axis) = numbers[..in_grammar].iter().position(beyond) {
            return Err(refusal(Reason::BeyondReach, line, axis + 1));
        }
        refused.map_or(Ok(()), Err)?;
        match token(OCCUPANCY).map(|occupancy| answers::number(occupancy.as_bytes())) {
            Some(Number::BeyondReach) => return Err(refusal(Reason::BeyondReach, line, 4)),
            Some(Number::Value(_)) => {}
            Some(Number::OutsideGrammar) | None => self.counts.assumed += 1,
        }
        let names = NAMES.map(|[auth, label]| self.columns[auth].or(self.columns[label]));
        let too_long =
            |name: &Option<usize>| name.is_some_and(|column| tokens[column].len() > LONGEST_NAME);
        if let Some(name) = names.iter().position(too_long) {
            return Err(refusal(Reason::NameTooLong, line, name + 1));
        }
        self.without_room()
            .map_or(Ok(()), |kind| Err(refusal(Reason::NoRoom, line, kind)))
    }

    /// What is an element to the published Rust alone is none by our rule: it gets a symbol that is
    /// none to both.
    fn take_symbol_by_our_rule(&mut self, tokens: &mut [String]) {
        let symbol = self.columns[SYMBOL].and_then(|column| tokens.get_mut(column));
        if let Some(symbol) = symbol
            && elements::described(symbol.as_bytes()).is_some()
        {
            *symbol = "?".to_string();
            self.symbols_differ = true;
        }
    }

    /// Which records the rows need more of than there are: 1 for chains, 2 for residues, 3 for
    /// atoms. No more can be needed than there were rows, and what need not be counted is not.
    fn without_room(&self) -> Option<usize> {
        let rows = self.counts.rows as usize;
        let Room {
            chains,
            residues,
            atoms,
        } = self.room;
        if self.rows.chain_count() > chains {
            return Some(1);
        }
        if rows > residues && self.rows.residue_count() > residues {
            return Some(2);
        }
        (rows > atoms && self.rows.atom_count() > atoms).then_some(3)
    }
}
