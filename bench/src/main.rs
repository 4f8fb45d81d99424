//! Prints how long the proved reader, the published Rust and gemmi take for the same files, as ratios of
//! one run, and how much memory. README.md says what each line means.
mod asked;
mod files;
mod gemmi;
mod hostile;
mod memory;
mod sides;
mod tasks;
mod timing;

use compare::places;
use files::{CHAINS, File, ONE_CHAIN, Order, RESIDUES, Shape};
use sides::Side;
use std::env;
use std::time::Duration;
use timing::Times;

/// The numbers of rows, the last of which makes a file of about 16 MB.
const ROWS: [usize; 3] = [10_000, 30_000, 150_000];

const BACKWARDS: Order = Order::Rows(places::Order::Backwards);
/// What is timed at each of these numbers.
const GROWING: [(&str, Shape, Order); 6] = [
    ("waters behind their chain", CHAINS, Order::Model),
    ("waters at the end", CHAINS, Order::Archive),
    ("chains backwards", CHAINS, BACKWARDS),
    ("one chain backwards", ONE_CHAIN, BACKWARDS),
    (
        "rows in no order",
        CHAINS,
        Order::Rows(places::Order::Shuffled),
    ),
    (
        "one chain from the middle outwards",
        ONE_CHAIN,
        Order::Rows(places::Order::Outwards),
    ),
];
const LARGEST: (&str, File) = (
    "waters at the end",
    File {
        shape: CHAINS,
        order: Order::Archive,
        rows: ROWS[ROWS.len() - 1],
    },
);
const MOST_RESIDUES: (&str, File) = (
    "residues of one atom",
    File {
        shape: RESIDUES,
        order: Order::Model,
        rows: 65_536,
    },
);
/// The files whose memory is asked for.
const IN_MEMORY: [(&str, File); 2] = [LARGEST, MOST_RESIDUES];

fn main() {
    let arguments: Vec<String> = env::args().skip(1).collect();
    match &arguments[..] {
        [] => table(),
        [word, options @ ..] if word == hostile::WORD => {
            hostile::Options::of(options).map_or_else(usage, |options| hostile::table(&options));
        }
        [word, number, reading] if word == memory::WORD => {
            let number: usize = number.parse().expect("a file has a number");
            memory::serve(&IN_MEMORY[number].1, reading);
        }
        [word, number, most, side] if word == hostile::readers::WORD => {
            hostile::readers::serve(number, most, side);
        }
        _ => usage(),
    }
}

fn usage() {
    eprintln!("usage: bench [{}]", hostile::USAGE);
}

fn table() {
    let gemmi = gemmi::Program::compiled();
    if let Some(why) = gemmi.missing() {
        println!("gemmi is not measured: {why}");
        println!();
    }
    println!(
        "| file | rows | MB | ours, s | published, s | gemmi, s | ours / published | ours / gemmi | ours, rows/s | ours, MB/s | published, rows/s | published, MB/s | turns |"
    );
    println!("|---|---|---|---|---|---|---|---|---|---|---|---|---|");
    for (name, shape, order) in GROWING {
        growth(name, shape, order, &gemmi);
    }
    timed(MOST_RESIDUES.0, &MOST_RESIDUES.1, &gemmi);
    println!();
    tasks::table(&gemmi);
    println!();
    println!(
        "| file | side | peak, MB | of which the text and the program, MB | lent records, MB |"
    );
    println!("|---|---|---|---|---|");
    for (number, (name, file)) in IN_MEMORY.iter().enumerate() {
        memory_lines(number, name, file);
    }
}

/// One shape and order at growing sizes, as far as ours may be expected to end in time.
fn growth(name: &str, shape: Shape, order: Order, gemmi: &gemmi::Program) {
    let mut last: Option<(usize, Times)> = None;
    for rows in ROWS {
        let at_worst = last.map(|(fewer, times)| timing::at_worst(&times, fewer, rows));
        if let Some(at_worst) = at_worst.filter(|&at_worst| at_worst > timing::LONGEST) {
            let seconds = at_worst.as_secs();
            println!(
                "| {name} | {rows} | not measured: ours could take {seconds} s, by the square of the rows |"
            );
            return;
        }
        let file = File { shape, order, rows };
        last = Some((rows, timed(name, &file, gemmi)));
    }
}

fn timed(name: &str, file: &File, gemmi: &gemmi::Program) -> Times {
    let text = file.text();
    let times = timing::measure(file, &text, gemmi);
    let bytes = megabytes(text.len() as u64);
    let [ours, published] = [times.ours, times.published].map(|time| {
        let seconds = time.as_secs_f64();
        format!("{:.0} | {:.1}", file.rows as f64 / seconds, bytes / seconds)
    });
    println!(
        "| {name} | {} | {bytes:.1} | {} | {} | {} | {} | {} | {ours} | {published} | {} |",
        file.rows,
        seconds(times.ours),
        seconds(times.published),
        times.gemmi.map_or("-".to_string(), seconds),
        ratio(times.ours, times.published),
        times
            .gemmi
            .map_or("-".to_string(), |gemmi| ratio(times.ours, gemmi)),
        times.turns
    );
    times
}

fn seconds(time: Duration) -> String {
    format!("{:.4}", time.as_secs_f64())
}

fn ratio(ours: Duration, other: Duration) -> String {
    format!("{:.2}", ours.as_secs_f64() / other.as_secs_f64())
}

fn megabytes(bytes: u64) -> f64 {
    bytes as f64 / 1e6
}

fn memory_lines(number: usize, name: &str, file: &File) {
    let without = memory::peak(number, None);
    for side in Side::ALL {
        let peak = megabytes(memory::peak(number, Some(side)));
        let lent = match side {
            Side::Ours => format!("{:.1}", megabytes(file.room().bytes())),
            Side::Published => "-".to_string(),
        };
        let side = side.name();
        println!(
            "| {name} | {side} | {peak:.1} | {:.1} | {lent} |",
            megabytes(without)
        );
    }
}
