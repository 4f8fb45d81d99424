//! What the command line asks for.
use crate::told::Told;
use std::ffi::OsString;
use std::path::PathBuf;

pub const USAGE: &str = "usage: intake-convert IN OUT

Takes in the mmCIF text of the file IN, and writes its structure to the file OUT, whole or not
at all. - for IN is standard input, for OUT standard output. Standard error gets the reason of
a refusal, with the line where there is one, and what is doubtful about a text that is taken in.

  --version   the version of this program
  --help      this text

Exit status: 0 OUT is written, 1 the text is refused, 2 IN cannot be read or OUT not written.
Where it is not 0, the file OUT is as it was.
";

#[derive(Debug, PartialEq, Eq)]
pub struct Options {
    pub from: PathBuf,
    pub to: PathBuf,
}

impl Options {
    /// Behind `--` nothing is an option.
    pub fn of_arguments(arguments: impl IntoIterator<Item = OsString>) -> Result<Self, Told> {
        let mut files = Vec::new();
        let mut arguments = arguments.into_iter();
        while let Some(argument) = arguments.next() {
            match argument.to_string_lossy().as_ref() {
                "--version" => return Err(Told::Version),
                "--help" | "-h" => return Err(Told::Help),
                "--" => files.extend(arguments.by_ref().map(PathBuf::from)),
                option if option.starts_with('-') && option != "-" => {
                    return Err(Told::Wrong(format!("there is no option {option}")));
                }
                _ => files.push(PathBuf::from(argument)),
            }
        }
        match <[PathBuf; 2]>::try_from(files) {
            Ok([from, to]) => Ok(Self { from, to }),
            Err(_) => Err(Told::Wrong("two files must be named".to_string())),
        }
    }
}

#[cfg(test)]
mod tests {
    use super::*;

    fn options(arguments: &[&str]) -> Result<Options, Told> {
        Options::of_arguments(arguments.iter().map(OsString::from))
    }

    #[test]
    fn two_files_are_named() {
        for (arguments, from, to) in [
            (["a.cif", "b.cif", "--"], "a.cif", "b.cif"),
            (["-", "--", "-b"], "-", "-b"),
        ] {
            let (from, to) = (PathBuf::from(from), PathBuf::from(to));
            assert_eq!(options(&arguments), Ok(Options { from, to }));
        }
    }

    #[test]
    fn what_is_wrong_is_told() {
        assert_eq!(options(&["a.cif", "--help"]), Err(Told::Help));
        assert_eq!(options(&["--version"]), Err(Told::Version));
        let wrong: [&[&str]; 4] = [
            &[],
            &["a.cif"],
            &["a.cif", "b.cif", "c.cif"],
            &["-v", "a.cif", "b.cif"],
        ];
        for arguments in wrong {
            let told = options(arguments);
            assert!(matches!(told, Err(Told::Wrong(_))), "{arguments:?}");
        }
    }
}
