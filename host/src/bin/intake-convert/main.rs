//! intake-convert IN OUT: takes in a text of any size within the limits, and writes its structure as
//! text, whole or not at all.
mod failure;
#[path = "../shared/input.rs"]
mod input;
mod options;
mod output;
#[path = "../shared/reason.rs"]
mod reason;
#[path = "../shared/told.rs"]
mod told;

use failure::Failure;
use options::{Options, USAGE};
use reason::Reason;
use std::env;
use std::process::ExitCode;
use structure_intake::{Report, Room};

fn main() -> ExitCode {
    let options = match Options::of_arguments(env::args_os().skip(1)) {
        Ok(options) => options,
        Err(told) => return told.tell(USAGE),
    };
    match convert(&options) {
        Ok(report) => {
            for reason in Reason::all_of(&report) {
                eprintln!("{}: {reason}", options.from.display());
            }
            ExitCode::SUCCESS
        }
        Err(failure) => {
            eprintln!("{failure}");
            ExitCode::from(failure.status())
        }
    }
}

fn convert(Options { from, to }: &Options) -> Result<Report, Failure> {
    let text = input::read(from).map_err(|error| Failure::Unreadable(from.clone(), error))?;
    let (report, written) = Room::for_text(&text)
        .intake_whole(&text)
        .map_err(|refusal| Failure::Refused(from.clone(), refusal))?;
    output::write_whole(to, &written).map_err(|error| Failure::Unwritable(to.clone(), error))?;
    Ok(report)
}
