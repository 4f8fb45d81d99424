//! Numbers are read and written as the published Rust reads and writes them, as far as the reach goes.
use compare::probe::{self, Written};
use compare::tally::Tally;
use compare::{answers, decimals, doubles, room};

#[test]
fn texts_are_read_alike() {
    let mut tally = Tally::default();
    for text in decimals::all() {
        let ours = probe::read_number(&text);
        let published = answers::number(&text);
        tally.compare(ours == published, || {
            format!(
                "`{}`: ours {ours}, published {published}",
                text.escape_ascii()
            )
        });
    }
    tally.finish("texts");
}

#[test]
fn doubles_are_printed_alike() {
    let mut tally = Tally::default();
    let numbers = doubles::all();
    for (&x, published) in numbers.iter().zip(answers::printed(&numbers)) {
        let ours = printed(x);
        tally.compare(ours == published, || {
            format!(
                "{x:e} ({:016x}): ours {ours}, published {published}",
                x.to_bits()
            )
        });
    }
    tally.finish("doubles");
}

/// Our text of a number, in the words of the published answers.
fn printed(x: f64) -> String {
    let mut out = [0; 32];
    match probe::write_thousandths(&mut out, 0, x) {
        Written::BeyondReach => "beyond".to_string(),
        Written::NoRoom(needed) => format!("no room for {needed} bytes"),
        Written::Next(next) => String::from_utf8_lossy(&out[..next]).into_owned(),
    }
}

#[test]
fn room_is_respected() {
    let mut tally = Tally::default();
    let numbers = [0.0, -0.0, -12.345, 999.9996, -1e6, 1e7, f64::NAN];
    for (&x, text) in numbers.iter().zip(answers::printed(&numbers)) {
        let text = (text != "beyond").then_some(text.as_str());
        room::compare(&mut tally, &x.to_string(), text, |out, at| {
            probe::write_thousandths(out, at, x)
        });
    }
    tally.finish("writes of numbers");
}
