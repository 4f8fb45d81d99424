//! Names: to quote, and to resolve as those of residues.
use crate::answers;
use crate::random::Random;
use crate::texts::{self, Text};

const QUOTING_LETTERS: &[u8] = b" \t'\"a?";
const LETTERS: &[u8] = b"ABCDEFGHIJKLMNOPQRSTUVWXYZabcdefghijklmnopqrstuvwxyz0123456789";
/// A name is packed of so many bytes.
const LONGEST_RESIDUE: usize = 8;

/// The edges and every family of names to quote, each once.
pub fn to_quote() -> Vec<Text> {
    texts::distinct([edges_to_quote(), families_to_quote().concat()].concat())
}

pub fn families_to_quote() -> [Vec<Text>; 2] {
    [texts::exhaustive(QUOTING_LETTERS, 7), any_to_quote()]
}

/// Every name of at most two of the letters that decide, and names as files have them.
pub fn edges_to_quote() -> Vec<Text> {
    let names = [
        "CA", "O5'", "H2\"", "a\"b", "a'b\"c", "a b", " a", "a ", "\ta", "'", "''", "\"'", "?",
        ".", "??", "#a", "_a", "loop_", ";", "HO5'", "1HB", "~", "!", "beyond", "O5' H2\"",
    ];
    let shortest = texts::exhaustive(QUOTING_LETTERS, 2);
    [shortest, names.map(Text::from).to_vec()].concat()
}

/// Random names, of the deciding letters more often than of others.
pub fn any_to_quote() -> Vec<Text> {
    let byte = |random: &mut Random| match random.below(6) {
        0 => random.pick(QUOTING_LETTERS),
        _ => texts::line_byte(random),
    };
    texts::random(Random::new(31), 60_000, 12, byte)
}

/// The names of the published tables and every family of others, each once.
pub fn residues() -> Vec<Text> {
    texts::distinct([answers::table_names(), residue_families().concat()].concat())
}

pub fn residue_families() -> [Vec<Text>; 4] {
    [
        texts::exhaustive(LETTERS, 3),
        near_the_tables(),
        texts::random(Random::new(32), 30_000, LONGEST_RESIDUE as u64, |random| {
            random.pick(LETTERS)
        }),
        texts::random(
            Random::new(33),
            30_000,
            LONGEST_RESIDUE as u64,
            texts::line_byte,
        ),
    ]
}

/// The names of the tables in every mixture of small and capital letters, padded, twice over, and
/// all that is one byte away from one.
fn near_the_tables() -> Vec<Text> {
    let mut names = Vec::new();
    for name in answers::table_names() {
        names.extend(texts::one_byte_away(&name, &texts::line_bytes()));
        names.extend(texts::in_every_case(
            &answers::text(&name).to_ascii_lowercase(),
        ));
        names.push([&name[..], &name].concat());
        names.push([&name[..], b"    "].concat());
    }
    names.retain(|name| name.len() <= LONGEST_RESIDUE);
    names
}
