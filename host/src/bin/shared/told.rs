//! What a tool tells instead of doing its work: the help, the version, or what is wrong with the command
//! line.
use std::process::ExitCode;

#[derive(Debug, PartialEq, Eq)]
pub enum Told {
    Help,
    Version,
    Wrong(String),
}

impl Told {
    pub fn tell(&self, usage: &str) -> ExitCode {
        let tool = env!("CARGO_BIN_NAME");
        match self {
            Self::Help => print!("{usage}"),
            Self::Version => println!("{tool} {}", env!("CARGO_PKG_VERSION")),
            Self::Wrong(why) => {
                eprint!("{tool}: {why}\n{usage}");
                return ExitCode::from(2);
            }
        }
        ExitCode::SUCCESS
    }
}
