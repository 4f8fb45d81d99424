//! Whole texts are read as the published Rust reads them, or refused where it refuses them or where
//! a limit is passed that it lacks.
use compare::judging::Tallies;
use compare::outcomes::Outcome;
use compare::random::Random;
use compare::readings::LONGEST_TEXT;
use compare::records::{Field, Records, Room};
use compare::texts::{self, Text};
use compare::{cifs, corpus, loops};

/// How often each file of the corpus is damaged.
const TIMES_DAMAGED: usize = 10;
/// One of how many small texts is read with each slice as the shortest: of every family some.
const STEP: usize = 53;

#[test]
fn small_texts_are_read_alike() {
    let mut tallies = Tallies::default();
    let mut records = Records::new(Room::AMPLE);
    for edge in cifs::edges() {
        tallies.compare("edge", &edge, &mut records, Room::AMPLE);
    }
    for number in 0..cifs::count() {
        let what = format!("text {number}");
        tallies.compare(&what, &cifs::text(number), &mut records, Room::AMPLE);
    }
    tallies.finish("small");
}

#[test]
fn files_are_read_alike() {
    let mut tallies = Tallies::default();
    for room in [Room::GREATEST, Room::OF_THE_PROGRAM] {
        let mut records = Records::new(room);
        for (place, file) in corpus::files().iter().enumerate() {
            let what = format!("file {place}");
            tallies.compare(&what, file.as_bytes(), &mut records, room);
        }
    }
    tallies.finish("files");
}

#[test]
fn damaged_files_are_read_alike() {
    let mut tallies = Tallies::default();
    let mut random = Random::new(51);
    let room = Room {
        chains: 100,
        residues: 5_000,
        atoms: 50_000,
    };
    let mut records = Records::new(room);
    for (place, file) in corpus::files().into_iter().enumerate() {
        for time in 0..TIMES_DAMAGED {
            let text = Text::from(file.as_str());
            let text = texts::damaged(&mut random, text, b" \n'\"_.?#", texts::line_byte);
            let what = format!("file {place} damaged the {time}th time");
            tallies.compare(&what, &text, &mut records, room);
        }
    }
    tallies.finish("damaged files");
}

/// Each slice in turn is one longer and one shorter than what is read needs, all others just right.
#[test]
fn the_shortest_slice_decides() {
    let mut tallies = Tallies::default();
    for number in (0..cifs::count()).step_by(STEP) {
        let text = cifs::text(number);
        let what = format!("text {number}");
        let mut records = Records::new(Room::AMPLE);
        let Outcome::Read(counts) = tallies.compare(&what, &text, &mut records, Room::AMPLE) else {
            continue;
        };
        let fitting = Room::of_counts(&counts);
        tallies.compare(&what, &text, &mut Records::new(fitting), fitting);
        for field in Field::ALL {
            let what = format!("{what} with other {field:?}");
            let mut room = fitting;
            let fits = *field.of_room(&mut room);
            let mut records = Records::new(fitting);
            records.resize(field, fits + 1);
            tallies.compare(&what, &text, &mut records, fitting);
            if fits > 0 {
                *field.of_room(&mut room) -= 1;
                records.resize(field, fits - 1);
                tallies.compare(&what, &text, &mut records, room);
            }
        }
    }
    tallies.finish("just fitting");
}

/// Texts at the greatest sizes and one past them, in records that have more room than that.
#[test]
fn greatest_sizes_are_kept() {
    let mut tallies = Tallies::default();
    let Room {
        chains,
        residues,
        atoms,
    } = Room::GREATEST;
    let room = Room {
        chains: chains + 10,
        residues: residues + 10,
        atoms: atoms + 10,
    };
    let mut records = Records::new(room);
    for past in 0..=1 {
        let texts = [
            ("bytes", vec![b'\n'; LONGEST_TEXT + past]),
            (
                "chains",
                rows(chains + past, |row| format!("O HOH {row} 1 0 0 0\n")),
            ),
            (
                "residues",
                rows(residues + past, |row| format!("O HOH A {row} 0 0 0\n")),
            ),
            ("atoms", rows(atoms + past, short_row)),
        ];
        for (what, text) in texts {
            let ours = tallies.compare(what, &text, &mut records, room);
            let refused = matches!(ours, Outcome::Refused(_));
            assert_eq!(refused, past == 1, "{what}: {ours}");
        }
    }
    tallies.finish("greatest sizes");
}

fn rows(count: usize, row: impl Fn(usize) -> String) -> Text {
    let headers = loops::fewest().join("\n");
    let rows: String = (0..count).map(row).collect();
    format!("loop_\n{headers}\n{rows}").into_bytes()
}

/// Rows so short that a text has room for more than the greatest number of atoms.
fn short_row(row: usize) -> String {
    let letters: Vec<char> = ('A'..='Z').chain('a'..='z').collect();
    let letter = |power: u32| letters[row / letters.len().pow(power) % letters.len()];
    let rest = row / letters.len().pow(2);
    let (chain, sequence) = (letters[rest / 10 % letters.len()], rest % 10);
    format!("{}{} C {chain} {sequence} 0 0 0\n", letter(1), letter(0))
}
