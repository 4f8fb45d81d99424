//! Names are quoted as the published Rust quotes them.
use compare::probe::{self, Written};
use compare::tally::Tally;
use compare::{answers, names, room};

/// More than the quotes add to a name.
const AMPLE: usize = 8;

#[test]
fn names_are_quoted_alike() {
    let mut tally = Tally::default();
    for name in names::to_quote() {
        let mut out = vec![0; name.len() + AMPLE];
        let ours = match probe::quote(&name, &mut out, 0) {
            Written::Next(next) => out[..next].escape_ascii().to_string(),
            other => format!("{other:?}"),
        };
        let published = answers::quoted(&name).as_bytes().escape_ascii().to_string();
        tally.compare(ours == published, || {
            format!(
                "`{}`: ours {ours}, published {published}",
                name.escape_ascii()
            )
        });
    }
    tally.finish("names to quote");
}

#[test]
fn room_is_respected() {
    let mut tally = Tally::default();
    for name in names::edges_to_quote() {
        let what = format!("`{}`", name.escape_ascii());
        let text = answers::quoted(&name);
        room::compare(&mut tally, &what, Some(&text), |out, at| {
            probe::quote(&name, out, at)
        });
    }
    tally.finish("writes of quoted names");
}
