//! intake-audit FILE..: takes in each file with room to spare, and tells which were refused and
//! which are marked as doubtful.
mod audit;
mod crew;
#[path = "../shared/input.rs"]
mod input;
mod json;
mod options;
mod progress;
#[path = "../shared/reason.rs"]
mod reason;
mod table;
#[path = "../shared/told.rs"]
mod told;
mod walk;

use audit::{Audit, Outcome};
use options::{Options, USAGE};
use progress::Progress;
use std::env;
use std::io::{self, Write};
use std::process::ExitCode;

fn main() -> ExitCode {
    let options = match Options::of_arguments(env::args_os().skip(1)) {
        Ok(options) => options,
        Err(told) => return told.tell(USAGE),
    };
    match run(&options) {
        Ok(status) => ExitCode::from(status),
        Err(error) => {
            // Whoever reads the output may stop reading it; that need not be told.
            if error.kind() != io::ErrorKind::BrokenPipe {
                eprintln!("intake-audit: the output cannot be written: {error}");
            }
            ExitCode::from(2)
        }
    }
}

fn run(options: &Options) -> io::Result<u8> {
    let list = walk::all_of(&options.files);
    let mut out = io::stdout().lock();
    let mut progress = Progress::new(list.len(), options.json);
    let mut worst = 0;
    let mut audits = Vec::new();
    crew::audit_all(&list, options.jobs, |place, audit| {
        worst = worst.max(status(&audit, options.strict));
        progress.done(&audit.file.to_string_lossy());
        if options.json {
            return out.write_all(json::object(&audit).as_bytes());
        }
        audits.push((place, audit));
        Ok(())
    })?;
    progress.clear();
    if !options.json {
        audits.sort_by_key(|&(place, _)| place);
        let audits: Vec<Audit> = audits.into_iter().map(|(_, audit)| audit).collect();
        out.write_all(table::table(&audits).as_bytes())?;
    }
    out.flush()?;
    Ok(worst)
}

/// 2 for a file that cannot be read, 1 for one that is refused, or marked where that is not let pass.
fn status(audit: &Audit, strict: bool) -> u8 {
    match audit.outcome {
        Outcome::Taken(_) => u8::from(strict && !audit.reasons().is_empty()),
        Outcome::Refused(_) => 1,
        Outcome::Unreadable(_) => 2,
    }
}
