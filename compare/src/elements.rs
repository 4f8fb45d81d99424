//! Texts to read as element symbols, and how the two readings differ by rule: ours takes a symbol
//! only as the published enum spells it.
use crate::answers;
use crate::random::Random;
use crate::texts::{self, Text};
use std::sync::LazyLock;

pub const GREATEST: u8 = 118;

/// The published symbols in the order of their numbers, looked up once: every row has one.
static SYMBOLS: LazyLock<Vec<&str>> =
    LazyLock::new(|| (1..=GREATEST).map(answers::symbol).collect());

/// How a text that is no symbol gets an element from the published Rust.
#[derive(Debug, Clone, Copy, PartialEq, Eq)]
pub enum Difference {
    OtherCase,
    AtomicNumber,
    Padded,
}

impl Difference {
    pub const ALL: [Self; 3] = [Self::OtherCase, Self::AtomicNumber, Self::Padded];

    pub fn name(self) -> &'static str {
        match self {
            Self::OtherCase => "symbols in another case",
            Self::AtomicNumber => "atomic numbers",
            Self::Padded => "padded symbols",
        }
    }
}

/// The difference that is described for the text, and the element that the published Rust reads.
pub fn described(text: &[u8]) -> Option<(Difference, u8)> {
    let text = answers::text(text);
    if let Ok(number) = text.parse::<u8>() {
        let element = (1..=GREATEST).contains(&number);
        return element.then_some((Difference::AtomicNumber, number));
    }
    let spelled = spelled(text.trim());
    let element = (1..)
        .zip(&*SYMBOLS)
        .find(|&(_, &symbol)| symbol == spelled)?
        .0;
    if text.trim() != text {
        return Some((Difference::Padded, element));
    }
    (text != spelled).then_some((Difference::OtherCase, element))
}

/// As the enum spells: one capital, then small letters.
fn spelled(text: &str) -> String {
    let mut spelled = text.to_ascii_lowercase();
    if let Some(first) = spelled.get_mut(..1) {
        first.make_ascii_uppercase();
    }
    spelled
}

/// The symbols and every family, each text once.
pub fn all() -> Vec<Text> {
    texts::distinct([symbols(), families().concat()].concat())
}

pub fn families() -> [Vec<Text>; 4] {
    [
        texts::exhaustive(&texts::line_bytes(), 2),
        near_symbols(),
        numbers(),
        texts::random(Random::new(41), 10_000, 4, texts::line_byte),
    ]
}

/// The symbols as the enum spells them.
pub fn symbols() -> Vec<Text> {
    SYMBOLS.iter().map(|&symbol| Text::from(symbol)).collect()
}

/// Symbols in every case, padded, and with a letter put in, and the word for none.
fn near_symbols() -> Vec<Text> {
    let mut symbols = texts::in_every_case("unknown");
    for symbol in self::symbols() {
        symbols.extend(texts::one_byte_away(&symbol, b"abcdefghijklmnopqrstuvwxyz"));
        for symbol in texts::in_every_case(&answers::text(&symbol).to_ascii_lowercase()) {
            for (before, after) in [("", ""), (" ", ""), ("", " "), (" ", " "), ("\t", "  ")] {
                symbols.push([before.as_bytes(), &symbol, after.as_bytes()].concat());
            }
        }
    }
    symbols
}

/// Numbers in and out of the elements' range, with signs, leading zeros and blanks.
fn numbers() -> Vec<Text> {
    let mut numbers = Vec::new();
    for number in 0..=300 {
        numbers.extend(
            ["", "+", "-", "0", "00", " "].map(|before| format!("{before}{number}").into_bytes()),
        );
        numbers.extend([".", " ", "e"].map(|after| format!("{number}{after}").into_bytes()));
    }
    numbers
}
