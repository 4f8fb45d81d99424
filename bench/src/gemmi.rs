//! gemmi, timed in a process of its own, where its headers are installed (Debian's gemmi-dev and tao-pegtl-dev).
use crate::asked::{self, Asked};
use std::path::PathBuf;
use std::process::Command;
use std::time::Duration;
use std::{env, fs};

/// The program that times gemmi, or why there is none.
pub struct Program(Result<PathBuf, String>);

impl Program {
    /// Compiles `gemmi.cpp`, which takes a minute.
    pub fn compiled() -> Self {
        let source = concat!(env!("CARGO_MANIFEST_DIR"), "/gemmi.cpp");
        let program = env::temp_dir().join(format!("gemmi-time-{}", std::process::id()));
        let output = Command::new("g++")
            .args(["-std=c++17", "-O2", "-o"])
            .arg(&program)
            .arg(source)
            .output();
        Self(match output {
            Ok(output) if output.status.success() => Ok(program),
            Ok(output) => {
                let errors = String::from_utf8_lossy(&output.stderr);
                let first = errors.lines().find(|line| line.contains("error"));
                Err(first.unwrap_or("g++ fails").to_string())
            }
            Err(error) => Err(error.to_string()),
        })
    }

    pub fn missing(&self) -> Option<&str> {
        self.0.as_ref().err().map(String::as_str)
    }

    /// gemmi with this text in memory, where it is there.
    pub fn reading(&self, text: &str) -> Option<Reading> {
        let program = self.0.as_ref().ok()?;
        let file = program.with_extension("cif");
        fs::write(&file, text).expect("a file can be written beside the program");
        let asked = Asked::start(Command::new(program).arg(&file));
        Some(Reading { asked, file })
    }
}

impl Drop for Program {
    fn drop(&mut self) {
        if let Ok(program) = &self.0 {
            let _ = fs::remove_file(program);
        }
    }
}

/// A process that reads one text again and again.
pub struct Reading {
    asked: Asked,
    file: PathBuf,
}

impl Reading {
    pub fn time(&mut self) -> Duration {
        self.asked.ask();
        asked::nanoseconds(&self.asked.answer())
    }
}

impl Drop for Reading {
    fn drop(&mut self) {
        let _ = fs::remove_file(&self.file);
    }
}
