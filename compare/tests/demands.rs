//! Demand 3 and the return trip, run: rows in another order give the same answer and the same records,
//! and what is written is read again as it was, coordinates as printed.
use compare::outcomes::{Counts, Outcome, Reason, Refusal};
use compare::probe::{self, Writing};
use compare::random::Random;
use compare::records::{Records, Room};
use compare::structures::Model;
use compare::tally::Tally;
use compare::texts::Text;
use compare::{cifs, corpus, orders, writings};

/// How many small texts are taken, of which enough are read and can be written.
const SMALL: usize = 60_000;
/// The fewest cases of each kind.
const CASES: usize = 20_000;
/// How often each file of the corpus is reordered.
const TIMES: usize = 10;
/// More than any of these texts needs.
const LONGEST: usize = 20_000_000;

/// The answer, and all that the records then hold.
fn read(text: &[u8], records: &mut Records) -> (Outcome, Model, Vec<u64>) {
    records.soil();
    let outcome = probe::read(text, records);
    let Outcome::Read(counts) = outcome else {
        return (outcome, Model::default(), Vec::new());
    };
    let occupancies = records.occupancies.filled(counts.atoms).iter();
    let occupancies = occupancies.map(|occupancy| occupancy.to_bits()).collect();
    (outcome, Model::of_records(records, &counts), occupancies)
}

/// Read to the end: into a model, or up to the one refusal after all lines.
fn is_at_the_end(outcome: Outcome) -> bool {
    match outcome {
        Outcome::Read(_) => true,
        Outcome::Refused(Refusal { reason, .. }) => reason == Reason::UnknownResidue,
    }
}

fn compare_orders(
    tally: &mut Tally,
    what: &str,
    random: &mut Random,
    text: &[u8],
    records: &mut Records,
) {
    let one = read(text, records);
    if !is_at_the_end(one.0) {
        return;
    }
    let Some(other) = orders::reordered(random, text) else {
        return;
    };
    let two = read(&other, records);
    tally.compare(one == two, || {
        let (text, other) = (
            String::from_utf8_lossy(text),
            String::from_utf8_lossy(&other),
        );
        format!("{what}: {} and {}\n{text}\n{other}", one.0, two.0)
    });
}

#[test]
fn rows_in_another_order_give_the_same() {
    let mut tally = Tally::default();
    let mut random = Random::new(71);
    let mut records = Records::new(Room::AMPLE);
    for number in 0..SMALL {
        let what = format!("text {number}");
        compare_orders(
            &mut tally,
            &what,
            &mut random,
            &cifs::text(number),
            &mut records,
        );
    }
    let mut records = Records::new(Room::GREATEST);
    for (place, file) in corpus::files().iter().enumerate() {
        for time in 0..TIMES {
            let what = format!("file {place}, order {time}");
            compare_orders(
                &mut tally,
                &what,
                &mut random,
                file.as_bytes(),
                &mut records,
            );
        }
    }
    assert!(tally.compared() >= CASES, "only {} cases", tally.compared());
    tally.finish("texts with their rows in another order");
}

/// The written text, if the model can be written.
fn written(records: &mut Records, counts: &Counts, out: &mut [u8]) -> Option<Text> {
    match probe::write(records, Room::of_counts(counts), out) {
        Writing::Written(length) => Some(out[..length].to_vec()),
        Writing::Refused(13, _) => None,
        refused => panic!("{refused:?}"),
    }
}

/// Writes what was read and reads it again.
fn compare_trip(tally: &mut Tally, what: &str, text: &[u8], records: &mut Records, out: &mut [u8]) {
    let (Outcome::Read(counts), model, _) = read(text, records) else {
        return;
    };
    let Some(text) = written(records, &counts, out) else {
        return;
    };
    let (outcome, returned, occupancies) = read(&text, records);
    let all_kept = Counts {
        rows: counts.atoms,
        skipped: 0,
        outdone: 0,
        assumed: 0,
        ..counts
    };
    let alike = outcome == Outcome::Read(all_kept)
        && returned == writings::as_printed(&model, &text)
        && occupancies.iter().all(|&bits| bits == 1.0_f64.to_bits());
    tally.compare(alike, || {
        let difference = returned.difference(&writings::as_printed(&model, &text));
        format!(
            "{what}: {outcome}, {difference}\n{}",
            String::from_utf8_lossy(&text)
        )
    });
}

#[test]
fn what_is_written_is_read_again() {
    let mut tally = Tally::default();
    let mut out = vec![0; LONGEST];
    let mut records = Records::new(Room::AMPLE);
    for number in 0..SMALL {
        let what = format!("text {number}");
        compare_trip(
            &mut tally,
            &what,
            &cifs::text(number),
            &mut records,
            &mut out,
        );
    }
    let mut records = Records::new(Room::GREATEST);
    for (place, file) in corpus::files().iter().enumerate() {
        let what = format!("file {place}");
        compare_trip(&mut tally, &what, file.as_bytes(), &mut records, &mut out);
    }
    assert!(tally.compared() >= CASES, "only {} cases", tally.compared());
    tally.finish("texts written and read again");
}
