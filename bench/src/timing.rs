//! Medians of repeated readings, the sides in turn, so that all meet the same machine.
use crate::files::File;
use crate::gemmi;
use crate::sides::{self, Side};
use compare::records::Records;
use std::time::{Duration, Instant};

const MOST_TURNS: usize = 9;
/// No new turn begins after that.
const BUDGET: Duration = Duration::from_secs(12);
/// What would take longer is told and not measured.
pub const LONGEST: Duration = Duration::from_secs(60);

/// The median time of each side.
#[derive(Debug, Clone, Copy)]
pub struct Times {
    pub ours: Duration,
    pub published: Duration,
    pub gemmi: Option<Duration>,
    pub turns: usize,
}

pub fn measure(file: &File, text: &str, gemmi: &gemmi::Program) -> Times {
    let mut records = Records::new(file.room());
    sides::compare(file, text);
    let mut reading = gemmi.reading(text);
    let mut times = Side::ALL.map(|_| Vec::new());
    let mut gemmi = Vec::new();
    let began = Instant::now();
    while times[0].len() < MOST_TURNS && (times[0].is_empty() || began.elapsed() < BUDGET) {
        for (side, times) in Side::ALL.into_iter().zip(&mut times) {
            times.push(side.time(text, &mut records));
        }
        gemmi.extend(reading.as_mut().map(gemmi::Reading::time));
    }
    let turns = times[0].len();
    let [ours, published] = times.map(median);
    Times {
        ours,
        published,
        gemmi: (!gemmi.is_empty()).then(|| median(gemmi)),
        turns,
    }
}

pub fn median(mut times: Vec<Duration>) -> Duration {
    times.sort();
    times[times.len() / 2]
}

/// How long ours may take for so many rows, if it grows with their square.
pub fn at_worst(times: &Times, rows: usize, more: usize) -> Duration {
    times.ours.mul_f64((more as f64 / rows as f64).powi(2))
}
