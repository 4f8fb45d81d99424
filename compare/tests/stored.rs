//! The stored list is what the published Rust answers now.
use compare::stored::{self, Stored};
use compare::tally::Tally;
use std::fs;

#[test]
fn stored_list_is_current() {
    let mut tally = Tally::default();
    let Stored { questions, answers } = stored::stored();
    assert!(questions.len() < stored::MOST_BYTES, "the list is too long");
    for (name, now) in [("stdin", &questions), ("stdout", &answers)] {
        let stored = fs::read(stored::folder().join(name)).unwrap_or_default();
        tally.compare(stored == now.as_bytes(), || {
            format!("crates/replay/{name} is not what `cargo run --release --bin store` writes")
        });
    }
    tally.finish(&format!(
        "files of {} stored questions",
        questions.lines().count()
    ));
}
