//! Names of residues and symbols of elements are known as the published Rust knows them; where the
//! rule for symbols is another, the difference is the described one.
use compare::elements::{self, Difference};
use compare::tally::Tally;
use compare::{answers, names, probe};

#[test]
fn residue_names_are_resolved_alike() {
    let mut tally = Tally::default();
    let names = names::residues();
    for (name, published) in names.iter().zip(answers::resolved(&names)) {
        let ours = probe::resolve(name);
        let published = published.map_or((String::new(), 0), |(canonical, standard)| {
            (canonical, standard as u8 + 1)
        });
        tally.compare(ours == published, || {
            format!(
                "`{}`: ours {ours:?}, published {published:?}",
                name.escape_ascii()
            )
        });
    }
    tally.finish("residue names");
}

#[test]
fn elements_are_spelled_alike() {
    let mut tally = Tally::default();
    for number in 1..=elements::GREATEST {
        let spelled = answers::spelling(number);
        let symbols = [probe::symbol(number), answers::symbol(number).to_string()];
        let numbers = [probe::element, answers::element].map(|read| read(spelled.as_bytes()));
        let alike = symbols == [&*spelled; 2] && numbers == [number; 2];
        tally.compare(alike, || {
            format!("{number} is {spelled}: symbols {symbols:?}, numbers {numbers:?}")
        });
    }
    tally.finish("elements");
}

#[test]
fn no_element_is_spelled_as_described() {
    let mut tally = Tally::default();
    for number in (0..=u8::MAX).filter(|number| !(1..=elements::GREATEST).contains(number)) {
        let symbols = (probe::symbol(number), answers::symbol(number));
        tally.compare(symbols == ("X".to_string(), "Unknown"), || {
            format!("{number}: {symbols:?}")
        });
    }
    tally.finish_described("numbers of no element");
}

#[test]
fn symbols_are_read_alike_or_differ_as_described() {
    let mut alike = Tally::default();
    let mut described = Difference::ALL.map(|_| Tally::default());
    for text in elements::all() {
        let answers = (probe::element(&text), answers::element(&text));
        let (tally, expected) = match elements::described(&text) {
            None => (&mut alike, (answers.1, answers.1)),
            Some((difference, element)) => (&mut described[difference as usize], (0, element)),
        };
        tally.compare(answers == expected, || {
            format!("`{}`: {answers:?}, not {expected:?}", text.escape_ascii())
        });
    }
    alike.finish("texts as element symbols");
    for (difference, tally) in Difference::ALL.iter().zip(described) {
        tally.finish_described(difference.name());
    }
}
