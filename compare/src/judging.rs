//! Whether a reading is what it must be: the answer, the records, and what the published Rust makes of
//! the same text. All that was compared is counted by what became of it.
use crate::outcomes::{Counts, Outcome, Reason, Refusal};
use crate::readings::{self, Reading};
use crate::records::{Records, Room};
use crate::structures::Model;
use crate::tally::Tally;
use crate::{answers, probe};

#[derive(Default)]
pub struct Tallies {
    read: Tally,
    refused: [Tally; Reason::ALL.len()],
}

impl Tallies {
    /// Reads the text into dirty records of that room. What is due comes from the published steps and
    /// the published `read`.
    pub fn compare(
        &mut self,
        what: &str,
        text: &[u8],
        records: &mut Records,
        room: Room,
    ) -> Outcome {
        let expected = readings::read(text, room);
        self.judge(what, text, records, |ours, records| {
            is_as_expected(ours, records, &expected)?;
            is_answered_alike(text, ours, records, expected.symbols_differ)
        })
    }

    /// Reads the text into dirty records where what is due is known.
    pub fn hold(&mut self, what: &str, text: &[u8], records: &mut Records, expected: &Reading) {
        self.judge(what, text, records, |ours, records| {
            is_as_expected(ours, records, expected)
        });
    }

    fn judge(
        &mut self,
        what: &str,
        text: &[u8],
        records: &mut Records,
        judged: impl FnOnce(Outcome, &mut Records) -> Result<(), String>,
    ) -> Outcome {
        records.soil();
        let ours = probe::read(text, records);
        let judged = judged(ours, records);
        let tally = match ours {
            Outcome::Read(_) => &mut self.read,
            Outcome::Refused(refusal) => &mut self.refused[refusal.reason as usize - 1],
        };
        tally.compare(judged.is_ok(), || {
            let shown = &text[..text.len().min(4000)];
            let difference = judged.unwrap_err();
            format!("{what}: {difference}\n{}", String::from_utf8_lossy(shown))
        });
        ours
    }

    pub fn finish(self, where_from: &str) {
        self.read
            .finish(&format!("{where_from}: texts that are read"));
        let refused = Reason::ALL.into_iter().zip(self.refused);
        for (reason, tally) in refused.filter(|(_, tally)| !tally.is_empty()) {
            let what = format!("{where_from}: {}", reason.name());
            if reason.is_shared() {
                tally.finish(&what);
            } else {
                tally.finish_described(&what);
            }
        }
    }
}

/// Whether the answer and the records are what they must be; if not, the first thing that is not.
fn is_as_expected(ours: Outcome, records: &mut Records, expected: &Reading) -> Result<(), String> {
    if ours != expected.outcome {
        return Err(format!("ours {ours}, not {}", expected.outcome));
    }
    if !records.are_clear_past(&ours) {
        return Err(format!("{ours}: records past the counts are not clear"));
    }
    match ours {
        Outcome::Read(counts) => holds(records, &counts, expected),
        Outcome::Refused(_) => Ok(()),
    }
}

/// Whether the records hold what the published Rust makes of the same rows, elements by our rule.
fn holds(records: &Records, counts: &Counts, expected: &Reading) -> Result<(), String> {
    if counts.rows != counts.skipped + counts.outdone + counts.atoms {
        return Err(format!("{counts:?} do not add up"));
    }
    let model = Model::of_records(records, counts);
    if model != expected.model {
        let difference = model.difference(&expected.model);
        return Err(format!("ours differs from the published rows {difference}"));
    }
    let occupancies = records.occupancies.filled(counts.atoms).iter();
    let occupancies: Vec<u64> = occupancies.map(|occupancy| occupancy.to_bits()).collect();
    if occupancies != expected.occupancies {
        return Err(format!(
            "occupancies {occupancies:?}, not {:?}",
            expected.occupancies
        ));
    }
    Ok(())
}

/// Whether the published Rust's answer is such as goes with ours.
fn is_answered_alike(
    text: &[u8],
    ours: Outcome,
    records: &Records,
    symbols_differ: bool,
) -> Result<(), String> {
    match ours {
        Outcome::Read(counts) => {
            is_read_alike(text, &Model::of_records(records, &counts), symbols_differ)
        }
        Outcome::Refused(refusal) if refusal.reason.is_shared() => is_refused_alike(text, refusal),
        // The published Rust lacks the limit: its steps alone say that it is passed.
        Outcome::Refused(_) => Ok(()),
    }
}

/// Whether the published `read` makes the same of the whole text. Its structure does not keep how a
/// symbol was spelled: where the text has one that is an element to it alone, ours may be none.
fn is_read_alike(text: &[u8], ours: &Model, symbols_differ: bool) -> Result<(), String> {
    let published = answers::read(text)
        .map_err(|error| format!("ours is read, the published Rust says {error:?}"))?;
    let mut published = Model::of_published(&published);
    if symbols_differ {
        let elements = published.elements().into_iter().zip(ours.elements());
        let by_our_rule = elements.map(|(theirs, ours)| if ours == 0 { 0 } else { theirs });
        let by_our_rule: Vec<u8> = by_our_rule.collect();
        published = published.with_elements(&by_our_rule);
    }
    if *ours == published {
        return Ok(());
    }
    let difference = ours.difference(&published);
    Err(format!("ours differs from the published Rust {difference}"))
}

/// Whether the published `read` refuses the whole text for the same reason, and at the same line.
fn is_refused_alike(text: &[u8], ours: Refusal) -> Result<(), String> {
    let error = match answers::read(text) {
        Err(error) => error,
        Ok(_) => return Err(format!("ours {ours:?}, the published Rust reads it")),
    };
    // The published Rust says which residue it does not know, not which place it has.
    let told = match ours.reason {
        Reason::UnknownResidue => Refusal { detail: 0, ..ours },
        _ => ours,
    };
    if readings::refusal_of(&error) == Some(told) {
        return Ok(());
    }
    Err(format!("ours {ours:?}, the published Rust says {error:?}"))
}
