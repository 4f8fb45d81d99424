//! Reading, writing and both together, at three sizes: each side's median time of one call.
use crate::files::{CHAINS, File, Order};
use crate::gemmi;
use crate::timing::median;
use compare::outcomes::Outcome;
use compare::records::{Records, Room};
use compare::service::{self, RESULT_BYTES};
use compare::{answers, probe};
use std::hint::black_box;
use std::time::{Duration, Instant};

const ATOMS: [usize; 3] = [100, 1_000, 150_000];
const TURNS: usize = 9;
/// Small files are taken again and again, until about so many atoms were taken.
const ATOMS_IN_A_TURN: usize = 150_000;

/// What one side does, in one call.
type Call<'a> = &'a mut dyn FnMut();

pub fn table(gemmi: &gemmi::Program) {
    println!(
        "| task | atoms | ours, µs | published, µs | gemmi, µs | ours / published | ours, MB/s | published, MB/s |"
    );
    println!("|---|---|---|---|---|---|---|---|");
    for rows in ATOMS {
        tasks(rows, gemmi);
    }
}

fn tasks(rows: usize, gemmi: &gemmi::Program) {
    let file = File {
        shape: CHAINS,
        order: Order::Archive,
        rows,
    };
    let text = file.text();
    let mut records = Records::new(file.room());
    let Outcome::Read(counts) = probe::read(text.as_bytes(), &mut records) else {
        panic!("the file is read");
    };
    let structure = answers::structure(&text).expect("the published Rust reads the file");
    let written = answers::written_text(&structure);
    let mut out = vec![0; written.len()];
    let mut result = [0; RESULT_BYTES];
    let model = Room::of_counts(&counts);

    let line = |task: &str, bytes: usize, gemmi: Option<Duration>, ours: Call, published: Call| {
        let (ours, published) = medians(rows, ours, published);
        let speed = |time: Duration| format!("{:.1}", bytes as f64 / time.as_secs_f64() / 1e6);
        println!(
            "| {task} | {rows} | {:.1} | {:.1} | {} | {:.2} | {} | {} |",
            micros(ours),
            micros(published),
            gemmi.map_or("-".to_string(), |time| format!("{:.1}", micros(time))),
            ours.as_secs_f64() / published.as_secs_f64(),
            speed(ours),
            speed(published),
        );
    };

    // The write comes first: it needs the records that were just filled.
    line(
        "write",
        written.len(),
        None,
        &mut || {
            black_box(probe::write(&mut records, model, &mut out));
        },
        &mut || {
            black_box(answers::written_text(&structure));
        },
    );
    assert_eq!(out, written.as_bytes(), "both write the same");
    let mut reading = gemmi.reading(&text);
    let by_gemmi = reading.as_mut().map(|reading| {
        let times = (0..TURNS).map(|_| reading.time()).collect();
        median(times)
    });
    line(
        "read",
        text.len(),
        by_gemmi,
        &mut || {
            black_box(probe::read(text.as_bytes(), &mut records));
        },
        &mut || {
            black_box(answers::structure(&text));
        },
    );
    line(
        "service",
        text.len(),
        None,
        &mut || {
            let number = service::intake_lent(text.as_bytes(), &mut out, &mut result, &mut records);
            assert_eq!(black_box(number), 0, "the file is served");
        },
        &mut || {
            let structure = answers::structure(&text).expect("the file is read");
            black_box(answers::written_text(&structure));
        },
    );
}

/// The median time of one call of each side, the sides in turn.
fn medians(rows: usize, ours: Call, published: Call) -> (Duration, Duration) {
    let calls = (ATOMS_IN_A_TURN / rows).max(1);
    let mut times = (Vec::new(), Vec::new());
    for _ in 0..TURNS {
        times.0.push(time(calls, ours));
        times.1.push(time(calls, published));
    }
    (median(times.0), median(times.1))
}

fn time(calls: usize, call: Call) -> Duration {
    let began = Instant::now();
    for _ in 0..calls {
        call();
    }
    began.elapsed() / calls as u32
}

fn micros(time: Duration) -> f64 {
    time.as_secs_f64() * 1e6
}
