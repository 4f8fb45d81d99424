//! What was read is written as the published Rust writes it, byte for byte, and records that hold no
//! well-formed model are refused.
use compare::outcomes::{Counts, Outcome};
use compare::probe::{self, Writing};
use compare::readings::{self, Reading};
use compare::records::{Records, Room};
use compare::room::lend;
use compare::tally::Tally;
use compare::{answers, cifs, corpus, writings};

const NOT_WELL_FORMED: Writing = Writing::Refused(12, 0);
/// One of how many small texts is damaged after it is read.
const STEP: usize = 29;
/// How many bytes the output is longer than the text.
const LONGER: usize = 9;

/// Reads the text, if both read it, and writes it into outputs one byte short, just long enough and
/// longer.
fn compare(tally: &mut Tally, what: &str, text: &[u8], records: &mut Records, room: Room) {
    let Outcome::Read(counts) = probe::read(text, records) else {
        return;
    };
    let Reading {
        structure,
        symbols_differ,
        ..
    } = readings::read(text, room);
    let expected = writings::text(&structure);
    if !symbols_differ {
        let whole = answers::read(text).expect("what ours reads the published Rust reads");
        tally.compare(expected == writings::text(&whole), || {
            format!("{what}: the published Rust writes its rows and the whole text differently")
        });
    }
    let exact = expected.len();
    for room in [0, exact - 1, exact, exact + LONGER] {
        let answer = match writings::first_unwritable(&structure) {
            Some(id) => Writing::Refused(13, id as u64),
            None if room < exact => Writing::Refused(14, exact as u64),
            None => Writing::Written(exact),
        };
        let (_, kept) = lend(room, |out| {
            if answer == Writing::Written(exact) {
                out[..exact].copy_from_slice(expected.as_bytes());
            }
        });
        let (ours, bytes) = lend(room, |out| {
            probe::write(records, Room::of_counts(&counts), out)
        });
        tally.compare((ours, &bytes) == (answer, &kept), || {
            let written = String::from_utf8_lossy(&bytes);
            format!("{what} in {room} bytes: {ours:?}, not {answer:?}\n{written}\n{expected}")
        });
    }
}

#[test]
fn small_texts_are_written_alike() {
    let mut tally = Tally::default();
    let mut records = Records::new(Room::AMPLE);
    for number in 0..cifs::count() {
        compare(
            &mut tally,
            &format!("text {number}"),
            &cifs::text(number),
            &mut records,
            Room::AMPLE,
        );
    }
    tally.finish("writings of small texts");
}

#[test]
fn files_are_written_alike() {
    let mut tally = Tally::default();
    let mut records = Records::new(Room::GREATEST);
    for (place, file) in corpus::files().iter().enumerate() {
        compare(
            &mut tally,
            &format!("file {place}"),
            file.as_bytes(),
            &mut records,
            Room::GREATEST,
        );
    }
    tally.finish("writings of files");
}

/// What makes a model one that is not well formed.
type Damage = (&'static str, fn(&mut Records, &mut Room));

const DAMAGES: [Damage; 16] = [
    ("a chain too many", |_, model| model.chains += 1),
    ("a residue too few", |_, model| model.residues -= 1),
    ("no atom", |_, model| model.atoms = 0),
    ("counts past the records", |records, model| {
        model.atoms = records.atom_keys.slice().len() + 1;
    }),
    ("a chain named .", |records, _| {
        records.chains.slice()[0].name = u64::from(b'.') << 56;
    }),
    ("a chain without a name", |records, _| {
        records.chains.slice()[0].name = 0
    }),
    ("a residue of another chain", |records, _| {
        records.residue_keys.slice()[0] += 5000 << 40;
    }),
    ("an atom of another residue", |records, _| {
        records.atom_keys.slice()[0] += 256
    }),
    ("an alias", |records, _| {
        records.residue_names.slice()[0] = u64::from_be_bytes(*b"TIP3\0\0\0\0");
    }),
    ("another standard code", |records, _| {
        records.residue_codes.slice()[0] = (records.residue_codes.slice()[0] + 1) % 32;
    }),
    ("another category", |records, _| {
        records.residue_categories.slice()[0] = records.residue_categories.slice()[0] % 3 + 1;
    }),
    ("another position", |records, _| {
        records.residue_positions.slice()[0] = (records.residue_positions.slice()[0] + 1) % 6;
    }),
    ("a name with byte 127", |records, _| {
        records.atom_names.slice()[0] = 127 << 56;
    }),
    ("element 119", |records, _| {
        records.elements.slice()[0] = 119
    }),
    ("a coordinate that is no number", |records, _| {
        records.positions.slice()[0][1] = f64::NAN;
    }),
    ("a coordinate beyond reach", |records, _| {
        records.positions.slice()[0][2] = 1_000_000.5;
    }),
];

#[test]
fn damaged_records_are_refused() {
    let mut tally = Tally::default();
    let mut records = Records::new(Room::AMPLE);
    for number in (0..cifs::count()).step_by(STEP) {
        let text = cifs::text(number);
        for (what, damage) in DAMAGES {
            let Outcome::Read(counts @ Counts { atoms: 1.., .. }) =
                probe::read(&text, &mut records)
            else {
                continue;
            };
            let mut model = Room::of_counts(&counts);
            damage(&mut records, &mut model);
            let (ours, bytes) = lend(50_000, |out| probe::write(&mut records, model, out));
            let (_, kept) = lend(50_000, |_| ());
            tally.compare((ours, bytes) == (NOT_WELL_FORMED, kept), || {
                format!("text {number} with {what}: {ours:?}")
            });
        }
    }
    tally.finish("damaged records");
}
