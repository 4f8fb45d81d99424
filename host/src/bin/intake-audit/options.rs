//! What the command line asks for.
use crate::input;
use crate::told::Told;
use std::ffi::OsString;
use std::num::NonZero;
use std::path::PathBuf;
use std::thread;

pub const USAGE: &str = "usage: intake-audit [--json] [--strict] [--jobs N] FILE..

Takes in each mmCIF file and prints a table: chains, residues, atoms, rows, rows that were
skipped, rows outdone by another row of their atom, rows whose occupancy was assumed to be
1.0, and the outcome. A file that is taken in is marked with a ! if it has no rows or no
atoms, if more than half of its unskipped rows are outdone, or if an occupancy is assumed.

A folder stands for every .cif and .mmcif file in it and below, - for standard input.

  --json      one JSON object to a line and file instead, as soon as the file is done
  --strict    end with 1 if a file is marked
  --jobs N    so many files at a time; without it, as many as there are cores
  --version   the version of this program
  --help      this text

Exit status: 0 all files are taken in, 1 some are refused, 2 some cannot be read.
";

/// Each job is a thread; no machine gains by more.
const MOST_JOBS: usize = 1024;

#[derive(Debug, PartialEq, Eq)]
pub struct Options {
    pub json: bool,
    /// No mark is let pass.
    pub strict: bool,
    pub jobs: usize,
    /// Folders among them.
    pub files: Vec<PathBuf>,
}

impl Options {
    /// Behind `--` nothing is an option.
    pub fn of_arguments(arguments: impl IntoIterator<Item = OsString>) -> Result<Self, Told> {
        let mut options = Self {
            json: false,
            strict: false,
            jobs: thread::available_parallelism().map_or(1, NonZero::get),
            files: Vec::new(),
        };
        let mut arguments = arguments.into_iter();
        while let Some(argument) = arguments.next() {
            match argument.to_string_lossy().as_ref() {
                "--json" => options.json = true,
                "--strict" => options.strict = true,
                "--jobs" => options.jobs = jobs(&arguments.next().unwrap_or_default())?,
                "--version" => return Err(Told::Version),
                "--help" | "-h" => return Err(Told::Help),
                "--" => options.files.extend(arguments.by_ref().map(PathBuf::from)),
                option if option.starts_with('-') && option != "-" => {
                    return Err(Told::Wrong(format!("there is no option {option}")));
                }
                _ => options.files.push(PathBuf::from(argument)),
            }
        }
        options.checked()
    }

    fn checked(self) -> Result<Self, Told> {
        let of_standard = self.files.iter().filter(|file| input::is_standard(file));
        match (self.files.len(), of_standard.count()) {
            (0, _) => Err(Told::Wrong("no file is named".to_string())),
            (_, 0 | 1) => Ok(self),
            _ => Err(Told::Wrong("standard input is named twice".to_string())),
        }
    }
}

fn jobs(number: &OsString) -> Result<usize, Told> {
    let jobs = number.to_str().and_then(|number| number.parse().ok());
    let within = jobs.filter(|jobs| (1..=MOST_JOBS).contains(jobs));
    within.ok_or_else(|| Told::Wrong(format!("--jobs needs a number from 1 to {MOST_JOBS}")))
}

#[cfg(test)]
mod tests {
    use super::*;

    fn options(arguments: &[&str]) -> Result<Options, Told> {
        Options::of_arguments(arguments.iter().map(OsString::from))
    }

    #[test]
    fn files_and_options_are_told_apart() {
        let expected = Options {
            json: true,
            strict: false,
            jobs: 3,
            files: ["a.cif", "-", "--json", "-b"].map(PathBuf::from).to_vec(),
        };
        let arguments = ["a.cif", "--json", "--jobs", "3", "-", "--", "--json", "-b"];
        assert_eq!(options(&arguments), Ok(expected));
    }

    #[test]
    fn what_is_wrong_is_told() {
        assert_eq!(options(&["a.cif", "--help"]), Err(Told::Help));
        assert_eq!(options(&["--version"]), Err(Told::Version));
        let wrong: [&[&str]; 8] = [
            &["--jsn", "a.cif"],
            &["--json"],
            &["-", "a.cif", "-"],
            &["a.cif", "--jobs"],
            &["--jobs", "a.cif"],
            &["--jobs", "0", "a.cif"],
            &["--jobs", "-1", "a.cif"],
            &["--jobs", "1025", "a.cif"],
        ];
        for arguments in wrong {
            let told = options(arguments);
            assert!(matches!(told, Err(Told::Wrong(_))), "{arguments:?}");
        }
    }
}
