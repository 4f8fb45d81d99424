//! The table of texts that fill the domain. Each side reads in a process of its own, and one that takes
//! longer than a limit is ended.
pub mod readers;
mod texts;

use crate::sides::Side;
use crate::timing::median;
use readers::{Answer, Reader};
use std::time::Duration;
use texts::TEXTS;

/// The word that asks for this table.
pub const WORD: &str = "hostile";
pub const USAGE: &str = "hostile [--rows N] [--seconds N]";

/// A text is read so many times at most.
const TURNS: usize = 5;
/// What takes longer is read once.
const LONG: Duration = Duration::from_secs(2);

/// How many lines a text has at most, and how long a reading may take.
pub struct Options {
    rows: usize,
    limit: Duration,
}

impl Options {
    pub fn of(words: &[String]) -> Option<Self> {
        let mut options = Self {
            rows: usize::MAX,
            limit: Duration::from_secs(60),
        };
        for pair in words.chunks(2) {
            let [word, number] = pair else { return None };
            match word.as_str() {
                "--rows" => options.rows = number.parse().ok()?,
                "--seconds" => options.limit = Duration::from_secs(number.parse().ok()?),
                _ => return None,
            }
        }
        Some(options)
    }
}

pub fn table(options: &Options) {
    println!("| text | bytes | rows | ours, ms | published, ms | ours / published |");
    println!("|---|---|---|---|---|---|");
    for (number, (name, _)) in TEXTS.iter().enumerate() {
        let readers = Side::ALL.map(|side| Reader::start(number, options.rows, side));
        let size = readers[0].size.clone();
        let times = measure(name, readers, options.limit);
        let [ours, published] = times.map(|time| told(time, options.limit));
        let ratio = ratio(times, options.limit);
        println!("| {name} | {size} | {ours} | {published} | {ratio} |");
    }
}

/// The median time of each side, the sides in turn; nothing where the first reading takes too long. Fails if
/// they do not make the same of the text.
fn measure(name: &str, readers: [Reader; 2], limit: Duration) -> [Option<Duration>; 2] {
    let mut readers = readers.map(Some);
    let mut answers: [Vec<Answer>; 2] = Default::default();
    for _ in 0..TURNS {
        for (slot, answers) in readers.iter_mut().zip(&mut answers) {
            let answer = slot.as_mut().and_then(|reader| reader.read(limit));
            if answer.as_ref().is_none_or(|answer| answer.took > LONG) {
                *slot = None;
            }
            answers.extend(answer);
        }
    }
    let mut digests = answers.iter().flatten().map(|answer| &answer.digest);
    let first = digests.next();
    assert!(
        digests.all(|digest| Some(digest) == first),
        "{name}: the two sides make different things of it"
    );
    answers.map(|answers| {
        let times: Vec<Duration> = answers.iter().map(|answer| answer.took).collect();
        (!times.is_empty()).then(|| median(times))
    })
}

fn told(time: Option<Duration>, limit: Duration) -> String {
    match time {
        Some(time) => format!("{:.1}", time.as_secs_f64() * 1e3),
        None => format!("over {} s", limit.as_secs()),
    }
}

/// How many times as long ours takes; where one was given up, the limit stands for it.
fn ratio([ours, published]: [Option<Duration>; 2], limit: Duration) -> String {
    let ratio = |ours: Duration, other: Duration| ours.as_secs_f64() / other.as_secs_f64();
    match (ours, published) {
        (Some(ours), Some(published)) => format!("{:.2}", ratio(ours, published)),
        (None, Some(published)) => format!("over {:.1}", ratio(limit, published)),
        (Some(ours), None) => format!("below {:.2}", ratio(ours, limit)),
        (None, None) => "-".to_string(),
    }
}
