//! One JSON object to a file, each on a line of its own.
use crate::audit::{Audit, Counts, Outcome};
use crate::reason::Reason;
use std::fmt::Write;
use structure_intake::{Refusal, Report};

pub fn object(audit: &Audit) -> String {
    let file = string(&audit.file.to_string_lossy());
    let outcome = match &audit.outcome {
        Outcome::Taken(counts) => taken(counts, &audit.reasons()),
        Outcome::Refused(refusal) => refused(refusal),
        Outcome::Unreadable(why) => {
            format!(r#""outcome":"unreadable","sentence":{}"#, string(why))
        }
    };
    format!("{{\"file\":{file},{outcome}}}\n")
}

fn taken(counts: &Counts, reasons: &[Reason]) -> String {
    let Counts {
        chains,
        residues,
        atoms,
        report,
    } = counts;
    let Report {
        rows,
        skipped,
        outdone,
        assumed,
        ..
    } = report;
    let of_model = format!(r#""chains":{chains},"residues":{residues},"atoms":{atoms}"#);
    let of_rows =
        format!(r#""rows":{rows},"skipped":{skipped},"outdone":{outdone},"assumed":{assumed}"#);
    let reasons: Vec<String> = reasons.iter().map(|reason| string(word(reason))).collect();
    let reasons = reasons.join(",");
    format!(r#""outcome":"taken",{of_model},{of_rows},"reasons":[{reasons}]"#)
}

/// Without the numbers, which have fields of their own, so that it can be looked for.
fn word(reason: &Reason) -> &'static str {
    match reason {
        Reason::NoRows => "no rows",
        Reason::NoAtoms => "no atoms",
        Reason::MostOutdone { .. } => "most rows outdone",
        Reason::OccupanciesAssumed(_) => "occupancies assumed",
    }
}

fn refused(refusal: &Refusal) -> String {
    let Refusal {
        number,
        line,
        detail,
    } = refusal;
    let sentence = string(&refusal.to_string());
    let by = format!(r#""number":{number},"line":{line},"detail":{detail}"#);
    format!(r#""outcome":"refused",{by},"sentence":{sentence}"#)
}

/// Quoted, with all escaped that JSON has no room for as it is.
fn string(text: &str) -> String {
    let mut quoted = String::from('"');
    for letter in text.chars() {
        match letter {
            '"' => quoted.push_str("\\\""),
            '\\' => quoted.push_str("\\\\"),
            '\n' => quoted.push_str("\\n"),
            '\r' => quoted.push_str("\\r"),
            '\t' => quoted.push_str("\\t"),
            // 127 and the others above 31 that cannot be seen are allowed; escaped they can be seen.
            control if control.is_control() => {
                write!(quoted, "\\u{:04x}", u32::from(control)).expect("a string takes all text");
            }
            other => quoted.push(other),
        }
    }
    quoted.push('"');
    quoted
}

#[cfg(test)]
mod tests {
    use super::*;

    #[test]
    fn texts_are_escaped() {
        assert_eq!(string("a.cif"), r#""a.cif""#);
        assert_eq!(string("a\"b\\c"), r#""a\"b\\c""#);
        assert_eq!(
            string("\n\r\t\0\u{1b}\u{7f}"),
            r#""\n\r\t\u0000\u001b\u007f""#
        );
        assert_eq!(string("Å 𝔸"), r#""Å 𝔸""#);
    }

    #[test]
    fn every_outcome_has_its_object() {
        let object = |outcome: Outcome| {
            object(&Audit {
                file: "a".into(),
                outcome,
            })
        };
        let report = Report {
            bytes_written: 720,
            rows: 9,
            skipped: 0,
            outdone: 5,
            assumed: 3,
        };
        let counts = Counts {
            chains: 1,
            residues: 2,
            atoms: 4,
            report,
        };
        assert_eq!(
            object(Outcome::Taken(counts)),
            "{\"file\":\"a\",\"outcome\":\"taken\",\"chains\":1,\"residues\":2,\"atoms\":4,\"rows\":9,\"skipped\":0,\"outdone\":5,\"assumed\":3,\"reasons\":[\"most rows outdone\",\"occupancies assumed\"]}\n"
        );
        let refusal = Refusal {
            number: 8,
            line: 12,
            detail: 4,
        };
        assert_eq!(
            object(Outcome::Refused(refusal)),
            "{\"file\":\"a\",\"outcome\":\"refused\",\"number\":8,\"line\":12,\"detail\":4,\"sentence\":\"line 12: the occupancy is beyond reach\"}\n"
        );
        assert_eq!(
            object(Outcome::Unreadable("gone".to_string())),
            "{\"file\":\"a\",\"outcome\":\"unreadable\",\"sentence\":\"gone\"}\n"
        );
    }
}
