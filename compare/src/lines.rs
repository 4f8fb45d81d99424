//! Lines to split into tokens, in families: what blanks, quotes and marks could get wrong.
use crate::random::Random;
use crate::texts::{self, Text};
use crate::{answers, corpus, names};
use published::model::atom::Atom;
use published::model::chain::Chain;
use published::model::residue::Residue;
use published::model::structure::Structure;
use published::model::types::{Element, Point, ResidueCategory};

const LETTERS: &[u8] = b" \t'\"a#_.";
const LONGEST: usize = 2048;

/// Lines that stand right at a rule, and some as files have them.
const AT_A_RULE: [&str; 40] = [
    "'' A",
    "a'b c",
    "'a b'c",
    "\"O5'\"",
    "O5'",
    "H2\"",
    "'H2\" x",
    "'a''b'",
    "'a' 'b'",
    "'a'\"b\"",
    "\"a\"'b",
    "''''",
    "'' ''",
    "'a\"b' \"c'd\"",
    " \t lead and trail \t ",
    "' kept  inside\t'",
    "'open to the end ",
    "a \"open to the end",
    " # a remark",
    "\t#a",
    "a # b",
    "a#b",
    "'#' a",
    "'' #",
    "loop_",
    "'loop_'",
    "loop_ _atom_site.group_PDB",
    "_cell.length_a 1.0",
    "_atom_site.Cartn_x",
    ";a text field",
    "; a b",
    "data_1ABC",
    ". ? '.' '?'",
    "!$%&()*+,-/:;<=>@[\\]^`{|}~",
    "ATOM 1 N N . MET A 1 1 ? 27.340 24.430 2.614 1.00 9.67 1 MET A N 1",
    "HETATM 2 O \"O'\" . QQQ A 1 . ? 0.250 0.000 -3.000 1.00 0.00 9 QQQ A \"O'\"",
    "ATOM   1738 C H2\"  . DT  C 2 1  ? 8.111   19.111  84.111  0.00 29.00 107 DT  B H2\"  1",
    "PDB 1IFP unspecified 'INOVIRUS (FILAMENTOUS BACTERIOPHAGE)'   ",
    "'Pederson, D.M.' 1 ",
    "_exptl_crystal.density_percent_sol   ? ",
];

/// The edges, every family, long lines and the corpus, each line once.
pub fn all() -> Vec<Text> {
    let made = [edges(), families().concat(), long()].concat();
    texts::distinct([made, of_corpus().concat()].concat())
}

pub fn families() -> [Vec<Text>; 4] {
    [short(), letters(), any_bytes(), written()]
}

/// Every line of at most two of the letters that decide, and the lines at a rule.
pub fn edges() -> Vec<Text> {
    let shortest = texts::exhaustive(LETTERS, 2);
    [shortest, AT_A_RULE.map(Text::from).to_vec()].concat()
}

/// Every line of at most six of the letters that decide.
fn short() -> Vec<Text> {
    texts::exhaustive(LETTERS, 6)
}

fn letters() -> Vec<Text> {
    texts::random(Random::new(11), 40_000, 24, |random| random.pick(LETTERS))
}

fn any_bytes() -> Vec<Text> {
    texts::random(Random::new(12), 40_000, 40, texts::line_byte)
}

/// Lines of the greatest length and just below it, of many short tokens or of few long ones.
fn long() -> Vec<Text> {
    let mut random = Random::new(13);
    let mut lines = vec![vec![b'a'; LONGEST], vec![b'\''; LONGEST]];
    for _ in 0..60 {
        let length = LONGEST - random.below(3) as usize;
        let plain = random.pick(&[4, 100, 1000]);
        let byte = |_| match random.below(plain) {
            0 => random.pick(LETTERS),
            _ => random.pick(b"abcdefgh"),
        };
        lines.push((0..length).map(byte).collect());
    }
    lines
}

/// Rows as the published writer writes them, of names that want quotes.
fn written() -> Vec<Text> {
    let mut random = Random::new(14);
    let names = texts::distinct(names::any_to_quote());
    let mut chains = Vec::new();
    for (place, name) in names.iter().step_by(6).enumerate() {
        let name = answers::text(name);
        let mut axis = || random.below(2_000_000) as f64 / 1000.0 - 1000.0;
        let point = Point::new(axis(), axis(), axis());
        let mut residue = Residue::new(place as i32, None, name, None, ResidueCategory::Ion);
        residue.add_atom(Atom::new(name, Element::Zn, point));
        let mut chain = Chain::new(name);
        chain.add_residue(residue);
        chains.push(chain);
    }
    lines_of(&Structure::from_iter(chains))
}

fn lines_of(structure: &Structure) -> Vec<Text> {
    let text = answers::written_text(structure);
    text.lines().map(Text::from).collect()
}

/// The corpus' lines, the same damaged, and what the published Rust writes of its files.
fn of_corpus() -> [Vec<Text>; 3] {
    let lines = corpus::lines();
    let damaged = damaged(&lines);
    let files = corpus::files();
    let structures = files.iter().filter_map(|file| answers::structure(file));
    let written = structures.flat_map(|structure| lines_of(&structure));
    [lines, damaged, written.collect()]
}

/// Each line with one to four bytes changed, put in or left out, twice over.
fn damaged(lines: &[Text]) -> Vec<Text> {
    let mut random = Random::new(15);
    let mut damaged = Vec::new();
    for line in lines.iter().chain(lines) {
        let mut line = line.clone();
        for _ in 0..=random.below(4) {
            if !line.is_empty() {
                line = texts::damaged(&mut random, line, LETTERS, texts::line_byte);
            }
        }
        damaged.push(line);
    }
    damaged
}
