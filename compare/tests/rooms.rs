//! Texts are read alike in rooms that are just enough for them, one record short, a few over, and of sizes
//! around which a room may be used in another way: small texts, files, and thousands of rows in hard orders.
use compare::crowds::{self, Crowd};
use compare::judging::Tallies;
use compare::loops::{self, Loop};
use compare::outcomes::Outcome;
use compare::plain::Plain;
use compare::random::Random;
use compare::readings::Reading;
use compare::records::{Field, Records, Room};
use compare::structures::Model;
use compare::{answers, cifs, corpus, rooms};

/// One of how many small texts is taken: of every family some.
const STEP: usize = 11;

/// Reads what can be read in just enough room and in rooms near that.
fn compare_near(tallies: &mut Tallies, random: &mut Random, what: &str, text: &[u8], ample: Room) {
    let outcome = tallies.compare(what, text, &mut Records::new(ample), ample);
    let Outcome::Read(counts) = outcome else {
        return;
    };
    let needed = Room::of_counts(&counts);
    for room in rooms::near(random, needed) {
        let what = format!("{what} in {room:?}");
        tallies.compare(&what, text, &mut Records::new(room), room);
    }
}

#[test]
fn small_texts_are_read_alike_in_any_room() {
    let mut tallies = Tallies::default();
    let mut random = Random::new(81);
    for number in (0..cifs::count()).step_by(STEP) {
        let (what, text) = (format!("text {number}"), cifs::text(number));
        compare_near(&mut tallies, &mut random, &what, &text, Room::AMPLE);
    }
    tallies.finish("small in any room");
}

#[test]
fn files_are_read_alike_in_any_room() {
    let mut tallies = Tallies::default();
    let mut random = Random::new(82);
    for (place, file) in corpus::files().iter().enumerate() {
        let (what, text) = (format!("file {place}"), file.as_bytes());
        compare_near(&mut tallies, &mut random, &what, text, Room::GREATEST);
    }
    tallies.finish("files in any room");
}

/// A text of many rows, and what is due: by the plain model, and by the published Rust, which have to agree.
struct Due {
    text: Vec<u8>,
    plain: Plain,
    reading: Reading,
}

impl Due {
    fn new(random: &mut Random, crowd: &Crowd) -> Self {
        let sites = crowd.sites(random);
        let atoms = Loop::of_sites(random, &sites, loops::few());
        let plain = Plain::of_sites(&sites, atoms.first_line());
        let text = atoms.text(random);
        let structure = answers::read(&text).expect("the published Rust reads these rows");
        let model = Model::of_published(&structure);
        assert!(
            plain.is_told_by(&model),
            "{crowd:?}: the published Rust has other records"
        );
        let reading = Reading {
            outcome: plain.outcome(plain.room()),
            model,
            structure,
            occupancies: plain.occupancies(),
            symbols_differ: false,
        };
        Self {
            text,
            plain,
            reading,
        }
    }

    /// Reads it in that room, one slice of residues or atoms a few entries longer than the others.
    fn hold(&mut self, tallies: &mut Tallies, random: &mut Random, what: &str, mut room: Room) {
        self.reading.outcome = self.plain.outcome(room);
        let mut records = Records::new(room);
        let field = random.pick(&Field::ALL[1..]);
        records.resize(field, *field.of_room(&mut room) + random.place(4));
        let what = format!("{what} in {room:?}");
        tallies.hold(&what, &self.text, &mut records, &self.reading);
    }
}

#[test]
fn many_rows_are_read_in_any_room() {
    let mut tallies = Tallies::default();
    let mut random = Random::new(83);
    for crowd in crowds::all() {
        let mut due = Due::new(&mut random, &crowd);
        let needed = due.plain.room();
        let mut rooms = rooms::near(&mut random, needed);
        rooms.extend(rooms::others(&mut random, needed));
        for room in rooms {
            due.hold(&mut tallies, &mut random, &format!("{crowd:?}"), room);
        }
    }
    tallies.finish("many rows in any room");
}

/// The largest texts in the hardest orders take long, so they are read in fewer rooms.
#[test]
fn more_rows_are_read_near_their_room() {
    let mut tallies = Tallies::default();
    let mut random = Random::new(84);
    for crowd in crowds::largest() {
        let mut due = Due::new(&mut random, &crowd);
        for room in rooms::near(&mut random, due.plain.room()) {
            due.hold(&mut tallies, &mut random, &format!("{crowd:?}"), room);
        }
    }
    tallies.finish("more rows near their room");
}
