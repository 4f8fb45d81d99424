//! One side in a process of its own, which makes a text and reads it when asked, so that a reading that
//! takes too long can be given up.
use super::texts::TEXTS;
use crate::asked::{self, Asked};
use crate::sides::Side;
use compare::records::Records;
use std::hash::{DefaultHasher, Hash, Hasher};
use std::io::{self, BufRead};
use std::process::Command;
use std::time::Duration;

/// The word that makes this program such a process.
pub const WORD: &str = "reader";

pub struct Reader {
    asked: Asked,
    /// The bytes and the rows of the text, as columns of a table.
    pub size: String,
}

/// How long one reading took, and a number made from all that was read.
pub struct Answer {
    pub took: Duration,
    pub digest: String,
}

impl Reader {
    /// Comes back when the text is made.
    pub fn start(number: usize, most: usize, side: Side) -> Self {
        let program = std::env::current_exe().expect("this program has a path");
        let words = [WORD, &number.to_string(), &most.to_string(), side.name()];
        let asked = Asked::start(Command::new(program).args(words));
        let size = asked.answer();
        Self { asked, size }
    }

    /// One reading, or nothing where it takes longer than that.
    pub fn read(&mut self, limit: Duration) -> Option<Answer> {
        self.asked.ask();
        let took = asked::nanoseconds(&self.asked.answer_within(limit)?);
        let digest = self.asked.answer();
        Some(Answer { took, digest })
    }
}

/// The work of such a process.
pub fn serve(number: &str, most: &str, side: &str) {
    let [number, most]: [usize; 2] =
        [number, most].map(|word| word.parse().expect("a number is given"));
    let side = Side::ALL.into_iter().find(|known| known.name() == side);
    let side = side.expect("a side has its name");
    let made = TEXTS[number].1.text(most);
    let mut records = Records::new(made.room);
    println!("{} | {}", made.text.len(), made.rows);
    let mut digest = None;
    for _ in io::stdin().lock().lines() {
        let (read, took) = side.read(&made.text, &mut records);
        println!("{}", took.as_nanos());
        // All readings of a text make the same.
        let digest = *digest.get_or_insert_with(|| digest_of(&read.model(&records)));
        println!("{digest:016x}");
    }
}

fn digest_of(value: &impl Hash) -> u64 {
    let mut hasher = DefaultHasher::new();
    value.hash(&mut hasher);
    hasher.finish()
}
