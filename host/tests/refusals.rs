//! The C header's table and names, the sentences of this crate and the list of the readme say the refusals
//! that `crates/refusals` defines: each number and each detail, and no other.
use std::fs;
use std::path::Path;
use structure_intake::Refusal;

/// The host call's own refusal, which no reading and no writing gives.
const OF_THE_CALL: (&str, u32) = ("ResultLength", 26);

fn file(path: &str) -> String {
    let top = Path::new(env!("CARGO_MANIFEST_DIR")).join("..");
    fs::read_to_string(top.join(path)).unwrap_or_else(|error| panic!("{path}: {error}"))
}

/// The lines `NAME (CASE ..) = VALUE` of a definition by cases: each case and its value.
fn cases(definitions: &str, name: &str) -> Vec<(String, String)> {
    let equations = definitions.lines().filter_map(|line| {
        let (case, value) = line
            .strip_prefix(name)?
            .strip_prefix(' ')?
            .split_once(" = ")?;
        let case = case.trim_matches(['(', ')']).split(' ').next()?;
        Some((case.to_string(), value.to_string()))
    });
    equations.collect()
}

/// What the details of a reason name, in the order of their numbers: `atom`, `residue`, ..
fn named(reason: &str) -> Vec<String> {
    let details = file("crates/refusals/specs/Details.antt");
    let (_, value) = cases(&file("crates/refusals/specs/Reasons.antt"), "detail_of")
        .into_iter()
        .find(|(case, _)| case == reason)
        .expect("every reason has a detail");
    let mut names = Vec::new();
    for (case, number) in cases(&details, value.split(' ').next().unwrap()) {
        if number.parse::<usize>().is_ok() {
            let name = case.rsplit('.').next().unwrap().to_lowercase();
            names.push(name);
        } else {
            let inner = number.split(' ').next().unwrap();
            names.extend(
                cases(&details, inner)
                    .into_iter()
                    .map(|(case, _)| case.rsplit('.').next().unwrap().to_lowercase()),
            );
        }
    }
    names
}

/// Every reason and its number, that of the host call last.
fn reasons() -> Vec<(String, u32)> {
    let defined = cases(&file("crates/refusals/specs/Reasons.antt"), "number_of");
    assert!(defined.len() >= 14, "the definition was not found");
    let numbered = defined
        .into_iter()
        .map(|(case, number)| (case, number.parse().unwrap()));
    numbered
        .chain([(OF_THE_CALL.0.to_string(), OF_THE_CALL.1)])
        .collect()
}

/// `TextTooLong` as `TEXT_TOO_LONG`.
fn shouted(name: &str) -> String {
    let mut out = String::new();
    for letter in name.chars() {
        if letter.is_uppercase() && !out.is_empty() {
            out.push('_');
        }
        out.push(letter.to_ascii_uppercase());
    }
    out
}

/// `1 atom, 2 residue, ..`
fn listed(names: &[String]) -> String {
    let numbered = names
        .iter()
        .enumerate()
        .map(|(i, name)| format!("{} {name}", i + 1));
    numbered.collect::<Vec<_>>().join(", ")
}

/// The constants `PREFIX NAME = NUMBER` of a file, in its order.
fn constants(text: &str, prefix: &str, between: &str) -> Vec<(String, u32)> {
    let constants = text.lines().filter_map(|line| {
        let (name, number) = line.trim().strip_prefix(prefix)?.split_once(between)?;
        let number = number.trim_end_matches([',', ';']).parse().ok()?;
        Some((name.to_string(), number))
    });
    constants.collect()
}

#[test]
fn header_names_every_refusal() {
    let header = file("include/structure_intake.h");
    let answers = header
        .split("enum structure_intake_answer {")
        .nth(1)
        .unwrap();
    let answers = answers.split('}').next().unwrap();
    let found = constants(answers, "STRUCTURE_INTAKE_", " = ");
    let taken = ("TAKEN".to_string(), 0);
    let wanted = reasons()
        .into_iter()
        .map(|(name, number)| (shouted(&name), number));
    assert_eq!(found, [taken].into_iter().chain(wanted).collect::<Vec<_>>());
}

#[test]
fn header_lists_every_detail() {
    let header = file("include/structure_intake.h");
    let table = header.split("no.  given exactly when").nth(1).unwrap();
    let table = table.split("*/").next().unwrap();
    for (reason, number) in reasons() {
        let begins = |line: &&str| {
            line.trim_start_matches([' ', '*'])
                .starts_with(&format!("{number}  "))
        };
        assert_eq!(
            table.lines().filter(begins).count(),
            1,
            "one row for {number}"
        );
        if reason != OF_THE_CALL.0 && !named(&reason).is_empty() {
            let words = table.replace(['*', '\n'], " ");
            let words = words.split_whitespace().collect::<Vec<_>>().join(" ");
            assert!(
                words.contains(&listed(&named(&reason))),
                "the details of {number}"
            );
        }
    }
}

#[test]
fn crate_names_every_refusal() {
    let found = constants(&file("host/src/refusal.rs"), "pub const ", ": u32 = ");
    let wanted = reasons()
        .into_iter()
        .map(|(name, number)| (shouted(&name), number));
    assert_eq!(found, wanted.collect::<Vec<_>>());
}

#[test]
fn sentences_name_every_detail() {
    let sentence = |number, detail| {
        Refusal {
            number,
            line: 1,
            detail,
        }
        .to_string()
    };
    for (reason, number) in reasons() {
        if reason == OF_THE_CALL.0 {
            continue;
        }
        let names = named(&reason);
        for (i, name) in names.iter().enumerate() {
            let said = sentence(number, i as u32 + 1);
            assert!(said.split(' ').any(|word| word == name), "{said}: {name}");
        }
        if !names.is_empty() {
            assert!(sentence(number, names.len() as u32 + 1).contains("thing without a name"));
        }
    }
}

#[test]
fn readme_lists_every_refusal() {
    let readme = file("README.md");
    let list = readme
        .split("## The refusals")
        .nth(1)
        .expect("the list of refusals");
    let list = list.split("\n## ").next().unwrap();
    let rows = list.lines().filter_map(|line| {
        let mut columns = line.split('|').map(str::trim);
        Some((
            columns.nth(1)?.parse::<u32>().ok()?,
            columns.nth(2)?.to_string(),
        ))
    });
    let rows = rows.collect::<Vec<_>>();
    assert_eq!(
        rows.iter().map(|row| row.0).collect::<Vec<_>>(),
        reasons()
            .into_iter()
            .map(|reason| reason.1)
            .collect::<Vec<_>>()
    );
    for ((reason, number), (_, detail)) in reasons().iter().zip(&rows) {
        if *reason != OF_THE_CALL.0 && !named(reason).is_empty() {
            assert_eq!(*detail, listed(&named(reason)), "the details of {number}");
        }
    }
}
