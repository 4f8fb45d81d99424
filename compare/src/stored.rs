//! The stored list: questions, and the published Rust's answers to them, which the proved program
//! `replay` has to give as well.
use crate::outcomes::{Outcome, Reason};
use crate::records::Room;
use crate::structures::Model;
use crate::texts::Text;
use crate::{answers, cifs, decimals, doubles, elements, lines, names, readings, tokens};
use std::path::PathBuf;

/// What the program reads at once, with some bytes left.
pub const MOST_BYTES: usize = 262_000;
/// The longest line to split, so that the list stays small.
const LONGEST: usize = 100;
/// The longest text to read, which the program has room for.
const LONGEST_TEXT: usize = 1_000;
/// The records of the program.
const ROOM: Room = Room {
    chains: 64,
    residues: 64,
    atoms: 64,
};

const TEXTS_OF_A_FAMILY: usize = 61;
const DOUBLES_OF_A_FAMILY: usize = 79;
const LINES_OF_A_FAMILY: usize = 43;
const NAMES_OF_A_FAMILY: usize = 47;
const SEQUENCES_OF_A_FAMILY: usize = 23;
const RESIDUES_OF_A_FAMILY: usize = 17;
const ELEMENTS_OF_A_FAMILY: usize = 19;
const SMALL_TEXTS: usize = 160;

/// One question to a line, and its answer on the same line of the other text.
#[derive(Default)]
pub struct Stored {
    pub questions: String,
    pub answers: String,
}

/// The program's folder, where the list is its `stdin` and `stdout`.
pub fn folder() -> PathBuf {
    PathBuf::from(concat!(env!("CARGO_MANIFEST_DIR"), "/../crates/replay"))
}

/// The list as the published Rust answers it now.
pub fn stored() -> Stored {
    let mut stored = Stored::default();
    stored.numbers();
    stored.tokens();
    stored.names();
    stored.texts();
    stored
}

impl Stored {
    fn numbers(&mut self) {
        let graphic = |text: &Text| !text.is_empty() && text.iter().all(u8::is_ascii_graphic);
        let texts = chosen(
            decimals::edges(),
            decimals::families(),
            TEXTS_OF_A_FAMILY,
            graphic,
        );
        self.ask_each("read", &texts, |text| answers::number(text).to_string());
        let numbers = chosen(
            doubles::edges(),
            doubles::families(),
            DOUBLES_OF_A_FAMILY,
            |_| true,
        );
        let bits = numbers
            .iter()
            .map(|x| format!("{:016x}", x.to_bits()).into_bytes());
        self.ask(
            "print",
            &bits.collect::<Vec<_>>(),
            answers::printed(&numbers),
        );
    }

    fn tokens(&mut self) {
        let short = |line: &Text| line.len() <= LONGEST;
        let lines = chosen(lines::edges(), lines::families(), LINES_OF_A_FAMILY, short);
        self.ask_each("tokens", &lines, |line| {
            let tokens = answers::tokens(line).into_iter();
            let counted = tokens.map(|token| format!("{}:{token}", token.len()));
            counted.collect::<Vec<_>>().join(" ")
        });
        let (edges, families) = (names::edges_to_quote(), names::families_to_quote());
        let names = chosen(edges, families, NAMES_OF_A_FAMILY, |_| true);
        self.ask_each("quote", &names, |name| answers::quoted(name));
        let (edges, families) = (tokens::sequence_edges(), tokens::sequence_families());
        let tokens = chosen(edges, families, SEQUENCES_OF_A_FAMILY, |_| true);
        let numbers = answers::sequences(&tokens).into_iter();
        self.ask(
            "sequence",
            &tokens,
            numbers.map(|number| number.to_string()),
        );
    }

    fn names(&mut self) {
        let (edges, families) = (answers::table_names(), names::residue_families());
        let names = chosen(edges, families, RESIDUES_OF_A_FAMILY, |name| {
            !name.is_empty()
        });
        let resolved = answers::resolved(&names)
            .into_iter()
            .map(|resolved| match resolved {
                Some((canonical, standard)) => format!("{canonical} {standard}"),
                None => "unresolved".to_string(),
            });
        self.ask("resolve", &names, resolved);
        let alike = |symbol: &Text| elements::described(symbol).is_none();
        let (edges, families) = (elements::symbols(), elements::families());
        let symbols = chosen(edges, families, ELEMENTS_OF_A_FAMILY, alike);
        self.ask_each("element", &symbols, |symbol| {
            answers::element(symbol).to_string()
        });
    }

    /// The edges, the cases, and the small texts of every family in turn, as far as they are short.
    fn texts(&mut self) {
        let short = |text: &Text| text.len() <= LONGEST_TEXT;
        let small = (0..)
            .map(cifs::text)
            .filter(short)
            .filter(|text| is_read_alike(text));
        let small = small.take(SMALL_TEXTS);
        let mut texts = [cifs::edges(), cifs::cases()].concat();
        texts.retain(|text| is_read_alike(text));
        texts.extend(small);
        let escaped = texts.iter().map(|text| escaped(text)).collect::<Vec<_>>();
        self.ask("structure", &escaped, texts.iter().map(|text| read(text)));
    }

    fn ask_each(&mut self, question: &str, texts: &[Text], answer: impl Fn(&Text) -> String) {
        self.ask(question, texts, texts.iter().map(answer));
    }

    fn ask(&mut self, question: &str, texts: &[Text], answers: impl IntoIterator<Item = String>) {
        for (text, answer) in texts.iter().zip(answers) {
            self.questions += &format!("{question} {}\n", answers::text(text));
            self.answers += &(answer + "\n");
        }
    }
}

/// Whether no limit is passed that the published Rust lacks, and no symbol is an element to it alone.
fn is_read_alike(text: &[u8]) -> bool {
    let reading = readings::read(text, ROOM);
    let alike = match reading.outcome {
        Outcome::Read(_) => true,
        Outcome::Refused(refusal) => refusal.reason.is_shared(),
    };
    alike && !reading.symbols_differ
}

/// What the published Rust makes of the whole text. It says which residue it does not know, not which
/// place it has.
fn read(text: &[u8]) -> String {
    let error = match answers::read(text) {
        Ok(structure) => return format!("read{}", Model::of_published(&structure)),
        Err(error) => error,
    };
    let refusal = readings::refusal_of(&error).expect("a text is refused by a known error");
    match refusal.reason {
        Reason::UnknownResidue => format!("refused {}", refusal.reason as u64),
        _ => Outcome::Refused(refusal).to_string(),
    }
}

/// The text with its lines on one line: byte 10 is written `\n`, byte 13 `\r`, and `\` is doubled.
fn escaped(text: &[u8]) -> Text {
    let bytes = text.iter().flat_map(|byte| match byte {
        b'\n' => b"\\n".to_vec(),
        b'\r' => b"\\r".to_vec(),
        b'\\' => b"\\\\".to_vec(),
        _ => vec![*byte],
    });
    bytes.collect()
}

/// The edges, and a few of what is wanted of each family.
fn chosen<T: Clone>(
    mut chosen: Vec<T>,
    families: impl IntoIterator<Item = Vec<T>>,
    count: usize,
    wanted: impl Fn(&T) -> bool,
) -> Vec<T> {
    for mut family in families {
        family.retain(&wanted);
        chosen.extend(spread(&family, count));
    }
    chosen
}

/// Some of a family, evenly spread. A prime `count` keeps in step with no pattern of the family.
fn spread<T: Clone>(family: &[T], count: usize) -> Vec<T> {
    (0..count)
        .map(|turn| family[turn * family.len() / count].clone())
        .collect()
}
