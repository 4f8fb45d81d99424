//! Why nothing was written: the sentence for standard error, and the status.
use std::fmt;
use std::io;
use std::path::PathBuf;
use structure_intake::Refusal;

pub enum Failure {
    Refused(PathBuf, Refusal),
    Unreadable(PathBuf, io::Error),
    Unwritable(PathBuf, io::Error),
}

impl Failure {
    pub fn status(&self) -> u8 {
        match self {
            Self::Refused(..) => 1,
            Self::Unreadable(..) | Self::Unwritable(..) => 2,
        }
    }
}

impl fmt::Display for Failure {
    fn fmt(&self, formatter: &mut fmt::Formatter<'_>) -> fmt::Result {
        match self {
            Self::Refused(file, refusal) => {
                write!(formatter, "{}:", file.display())?;
                if refusal.line != 0 {
                    write!(formatter, "{}:", refusal.line)?;
                }
                // The line stands in front, as editors and other tools expect it.
                let sentence = Refusal {
                    line: 0,
                    ..*refusal
                };
                write!(formatter, " {sentence}")
            }
            Self::Unreadable(file, error) => {
                write!(formatter, "{}: cannot be read: {error}", file.display())
            }
            Self::Unwritable(file, error) => {
                write!(formatter, "{}: cannot be written: {error}", file.display())
            }
        }
    }
}
