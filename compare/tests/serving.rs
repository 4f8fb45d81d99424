//! The host call answers what the published reader and writer give together, with the limits laid
//! over them that they lack: the number, the result, and every byte of the output.
use compare::outcomes::{Counts, Outcome, Reason};
use compare::random::Random;
use compare::readings::{self, LONGEST_TEXT, Reading};
use compare::records::{Field, Records, Room};
use compare::room;
use compare::service::{self, RESULT_BYTES};
use compare::servings::{Answer, Serving};
use compare::structures::Model;
use compare::tally::Tally;
use compare::texts::{self, Text};
use compare::{cifs, corpus, loops};
use std::collections::BTreeMap;

/// How often each file of the corpus is damaged.
const TIMES_DAMAGED: usize = 3;
/// One of how many small texts is taken in with each slice as the shortest: of every family some.
const STEP: usize = 101;
/// What a result holds beforehand.
const DIRT: u8 = 0xa5;

/// What was compared, by the answer's number.
#[derive(Default)]
struct Tallies(BTreeMap<u32, Tally>);

impl Tallies {
    fn compare(&mut self, what: &str, text: &[u8], answer: u32, judged: Result<(), String>) {
        let tally = self.0.entry(answer).or_default();
        tally.compare(judged.is_ok(), || {
            let shown = String::from_utf8_lossy(&text[..text.len().min(4000)]);
            format!("{what}: {}\n{shown}", judged.unwrap_err())
        });
    }

    /// Calls with the service's own records.
    fn own(&mut self, what: &str, text: &[u8], serving: &Serving) {
        for length in lengths(serving) {
            let (answer, judged) = called(serving, length, |out, result| {
                service::intake(text, out, result)
            });
            self.compare(what, text, answer, judged);
        }
    }

    /// Calls with dirty records of the room that is due.
    fn lent(&mut self, what: &str, text: &[u8], due: &Due, records: &mut Records) {
        for length in lengths(&due.serving) {
            records.soil();
            let (answer, judged) = called(&due.serving, length, |out, result| {
                service::intake_lent(text, out, result, records)
            });
            let judged = judged.and_then(|()| holds(records, answer, &due.reading));
            self.compare(what, text, answer, judged);
        }
    }

    /// Calls both ways, which have to answer alike where both have room.
    fn both(&mut self, what: &str, text: &[u8], records: &mut Records, room: Room) {
        let due = Due::new(text, room);
        self.own(what, text, &due.serving);
        self.lent(what, text, &due, records);
    }

    fn finish(self, where_from: &str) {
        for (answer, tally) in self.0 {
            let what = format!("{where_from}: calls that answer {answer}");
            let reason = Reason::of_number(u64::from(answer));
            // All other refusals are for limits that the published Rust lacks.
            if answer == 0 || reason.is_some_and(Reason::is_shared) {
                tally.finish(&what);
            } else {
                tally.finish_described(&what);
            }
        }
    }
}

/// What a text must give in records of a room.
struct Due {
    reading: Reading,
    serving: Serving,
}

impl Due {
    fn new(text: &[u8], room: Room) -> Self {
        let reading = readings::read(text, room);
        let serving = Serving::of_reading(&reading);
        Self { reading, serving }
    }
}

/// Outputs that are empty, one byte short, just long enough and longer; after a refusal any will do.
fn lengths(serving: &Serving) -> Vec<usize> {
    match serving.length() {
        0 => vec![37],
        needed => vec![0, needed - 1, needed, needed + 37],
    }
}

/// The answer of the call, and whether it, the result and all bytes of the output and beside it are
/// what they must be; if not, the first thing that is not.
fn called(
    serving: &Serving,
    length: usize,
    call: impl FnOnce(&mut [u8], &mut [u8]) -> u32,
) -> (u32, Result<(), String>) {
    let mut result = [DIRT; RESULT_BYTES];
    let (answer, bytes) = room::lend(length, |out| call(out, &mut result));
    let (expected, written) = serving.with_output(length);
    let ((), kept) = room::lend(length, |out| {
        out[..written.len()].copy_from_slice(written.as_bytes());
    });
    let judged = if (answer, result) != expected {
        let (ours, due) = (told((answer, result)), told(expected));
        Err(format!("with {length} bytes {ours}, not {due}"))
    } else if bytes != kept {
        let place = (0..bytes.len()).find(|&place| bytes[place] != kept[place]);
        Err(format!(
            "with {length} bytes the output differs at {place:?}"
        ))
    } else {
        Ok(())
    };
    (answer, judged)
}

fn told((answer, result): Answer) -> String {
    let numbers = result.chunks(4).map(|four| {
        let four = four.try_into().expect("a result has seven fours");
        u32::from_le_bytes(four)
    });
    format!("{answer} {:?}", numbers.collect::<Vec<u32>>())
}

/// Whether the records hold the model after 0, and nothing after a refusal.
fn holds(records: &mut Records, answer: u32, reading: &Reading) -> Result<(), String> {
    let counts = match (answer, reading.outcome) {
        (0, Outcome::Read(counts)) => counts,
        _ => Counts::default(),
    };
    if !records.are_clear_past(&Outcome::Read(counts)) {
        return Err(format!("records past {counts:?} are not clear"));
    }
    if answer != 0 {
        return Ok(());
    }
    let model = Model::of_records(records, &counts);
    if model != reading.model {
        let difference = model.difference(&reading.model);
        return Err(format!("the records differ {difference}"));
    }
    let occupancies = records.occupancies.filled(counts.atoms).iter();
    let occupancies: Vec<u64> = occupancies.map(|occupancy| occupancy.to_bits()).collect();
    if occupancies != reading.occupancies {
        return Err("the occupancies differ".to_string());
    }
    Ok(())
}

#[test]
fn small_texts_are_served_alike() {
    let mut tallies = Tallies::default();
    let mut records = Records::new(Room::AMPLE);
    for edge in cifs::edges() {
        tallies.both("edge", &edge, &mut records, Room::AMPLE);
    }
    for number in 0..cifs::count() {
        let what = format!("text {number}");
        tallies.both(&what, &cifs::text(number), &mut records, Room::AMPLE);
    }
    tallies.finish("small");
}

#[test]
fn files_are_served_alike() {
    let mut tallies = Tallies::default();
    let mut random = Random::new(52);
    let mut few = Records::new(Room::OF_THE_PROGRAM);
    let mut many = Records::new(Room::GREATEST);
    for (place, file) in corpus::files().into_iter().enumerate() {
        for time in 0..=TIMES_DAMAGED {
            let mut text = Text::from(file.as_str());
            if time > 0 {
                text = texts::damaged(&mut random, text, b" \n'\"_.?#", texts::line_byte);
            }
            let what = format!("file {place} damaged the {time}th time");
            tallies.both(&what, &text, &mut few, Room::OF_THE_PROGRAM);
            let due = Due::new(&text, Room::GREATEST);
            tallies.lent(&what, &text, &due, &mut many);
        }
    }
    tallies.finish("files");
}

/// The service's own records have room for 64 chains, 512 residues and 1,024 atoms, and no more.
#[test]
fn own_records_have_their_sizes() {
    let mut tallies = Tallies::default();
    let Room {
        chains,
        residues,
        atoms,
    } = Room::OF_THE_PROGRAM;
    for past in 0..=1 {
        let texts = [
            rows(chains + past, |row| format!("O HOH {row} 1 0 0 0")),
            rows(residues + past, |row| format!("O HOH A {row} 0 0 0")),
            rows(atoms + past, |row| format!("{row} HOH A 1 0 0 0")),
        ];
        for text in texts {
            let due = Due::new(&text, Room::OF_THE_PROGRAM);
            let refused = matches!(due.serving, Serving::Refused(..));
            assert_eq!(refused, past == 1, "{}", due.reading.outcome);
            tallies.own("sizes", &text, &due.serving);
        }
    }
    tallies.finish("own records");
}

fn rows(count: usize, row: impl Fn(usize) -> String) -> Text {
    let mut lines = vec!["loop_".to_string()];
    lines.extend(loops::fewest());
    lines.extend((0..count).map(row));
    lines.join("\n").into_bytes()
}

/// Each slice in turn is one longer and one shorter than what is read needs, all others just right.
#[test]
fn the_shortest_slice_decides() {
    let mut tallies = Tallies::default();
    for number in (0..cifs::count()).step_by(STEP) {
        let text = cifs::text(number);
        let Outcome::Read(counts) = readings::read(&text, Room::AMPLE).outcome else {
            continue;
        };
        let fitting = Room::of_counts(&counts);
        let due = Due::new(&text, fitting);
        for field in Field::ALL {
            let what = format!("text {number} with other {field:?}");
            let mut room = fitting;
            let fits = *field.of_room(&mut room);
            let mut records = Records::new(fitting);
            records.resize(field, fits + 1);
            tallies.lent(&what, &text, &due, &mut records);
            if fits > 0 {
                *field.of_room(&mut room) -= 1;
                records.resize(field, fits - 1);
                let due = Due::new(&text, room);
                tallies.lent(&what, &text, &due, &mut records);
            }
        }
    }
    tallies.finish("just fitting");
}

#[test]
fn the_longest_text_is_taken() {
    let mut tallies = Tallies::default();
    let mut records = Records::new(Room::AMPLE);
    for past in 0..=1 {
        let text = vec![b'\n'; LONGEST_TEXT + past];
        tallies.both("longest", &text, &mut records, Room::AMPLE);
    }
    tallies.finish("longest texts");
}

/// What was written, taken in again, is written byte for byte alike.
#[test]
fn written_texts_come_back() {
    let mut tally = Tally::default();
    for number in 0..cifs::count() {
        let due = Due::new(&cifs::text(number), Room::AMPLE);
        let Serving::Written(_, text) = due.serving else {
            continue;
        };
        let mut result = [DIRT; RESULT_BYTES];
        let mut out = vec![DIRT; text.len()];
        let answer = service::intake(text.as_bytes(), &mut out, &mut result);
        tally.compare((answer, &out[..]) == (0, text.as_bytes()), || {
            let written = String::from_utf8_lossy(&out);
            format!("text {number}: {answer}, {written}\nnot\n{text}")
        });
    }
    tally.finish("texts that were written");
}

/// A result of another length is refused before all else, whatever the text, and nothing changes.
#[test]
fn other_results_change_nothing() {
    let mut tally = Tally::default();
    for text in cifs::edges().into_iter().chain([vec![0], vec![b' '; 3000]]) {
        for length in (0..RESULT_BYTES).chain(RESULT_BYTES + 1..60) {
            let mut records = Records::new(Room::AMPLE);
            let ((own, lent), bytes) = room::lend(2000, |out| {
                let (mut one, mut two) = (vec![DIRT; length], vec![DIRT; length]);
                let own = service::intake(&text, out, &mut one);
                let lent = service::intake_lent(&text, out, &mut two, &mut records);
                ((own, one), (lent, two))
            });
            let kept = vec![DIRT; length];
            let ((), untouched) = room::lend(2000, |_| ());
            let same = (own, lent) == ((26, kept.clone()), (26, kept))
                && bytes == untouched
                && records.are_untouched();
            tally.compare(same, || format!("a result of {length} bytes"));
        }
    }
    tally.finish("results of other lengths");
}
