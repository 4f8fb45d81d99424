//! The table for people: a line to a file, and a last line that sums up.
use crate::audit::{Audit, Counts, Outcome};

const HEADS: [&str; 10] = [
    "", "file", "chains", "residues", "atoms", "rows", "skipped", "outdone", "assumed", "outcome",
];
/// The columns of texts; the others hold numbers, which stand at the right.
const TEXTS: [usize; 3] = [0, 1, 9];

type Line = [String; HEADS.len()];

pub fn table(audits: &[Audit]) -> String {
    let mut lines = vec![HEADS.map(String::from)];
    lines.extend(audits.iter().map(line));
    let mut widths = [0; HEADS.len()];
    for line in &lines {
        for (width, cell) in widths.iter_mut().zip(line) {
            *width = (*width).max(cell.chars().count());
        }
    }
    let mut text: String = lines.iter().map(|line| aligned(line, &widths)).collect();
    text.push_str(&sum(audits));
    text
}

fn line(audit: &Audit) -> Line {
    let file = shown(&audit.file.to_string_lossy());
    let (mark, numbers, outcome) = match &audit.outcome {
        Outcome::Taken(counts) => (mark(audit), numbers(counts), taken(audit)),
        Outcome::Refused(refusal) => ("", missing(), format!("refused: {refusal}")),
        Outcome::Unreadable(why) => ("", missing(), format!("cannot be read: {why}")),
    };
    let [chains, residues, atoms, rows, skipped, outdone, assumed] = numbers;
    [
        mark.to_string(),
        file,
        chains,
        residues,
        atoms,
        rows,
        skipped,
        outdone,
        assumed,
        outcome,
    ]
}

fn mark(audit: &Audit) -> &'static str {
    if audit.reasons().is_empty() { "" } else { "!" }
}

fn taken(audit: &Audit) -> String {
    let mut told = "taken".to_string();
    for reason in audit.reasons() {
        told.push_str(&format!(", {reason}"));
    }
    told
}

fn numbers(counts: &Counts) -> [String; 7] {
    let report = &counts.report;
    let numbers = [
        counts.chains,
        counts.residues,
        counts.atoms,
        report.rows,
        report.skipped,
        report.outdone,
        report.assumed,
    ];
    numbers.map(|number| number.to_string())
}

fn missing() -> [String; 7] {
    ["-"; 7].map(String::from)
}

/// A file's name may hold what would break the line.
fn shown(file: &str) -> String {
    let printable = |letter: char| if letter.is_control() { '?' } else { letter };
    file.chars().map(printable).collect()
}

fn aligned(line: &Line, widths: &[usize; HEADS.len()]) -> String {
    let cells = line.iter().zip(widths).enumerate();
    let cells: Vec<String> = cells
        .map(|(column, (cell, &width))| {
            if TEXTS.contains(&column) {
                format!("{cell:<width$}")
            } else {
                format!("{cell:>width$}")
            }
        })
        .collect();
    format!("{}\n", cells.join("  ").trim_end())
}

fn sum(audits: &[Audit]) -> String {
    let count = |is: fn(&Audit) -> bool| audits.iter().filter(|audit| is(audit)).count();
    let taken = count(|audit| matches!(audit.outcome, Outcome::Taken(_)));
    let marked = count(|audit| !audit.reasons().is_empty());
    let refused = count(|audit| matches!(audit.outcome, Outcome::Refused(_)));
    let unreadable = count(|audit| matches!(audit.outcome, Outcome::Unreadable(_)));
    let files = match audits.len() {
        1 => "1 file".to_string(),
        many => format!("{many} files"),
    };
    format!(
        "{files}: {taken} taken, {marked} of them marked (!); {refused} refused; {unreadable} cannot be read\n"
    )
}
