//! Writes the stored list anew: the input of the program `replay`, and what it must print.
use compare::stored;
use std::{fs, process};

fn main() {
    let stored = stored::stored();
    for (name, text) in [("stdin", stored.questions), ("stdout", stored.answers)] {
        let file = stored::folder().join(name);
        if let Err(error) = fs::write(&file, text) {
            eprintln!("{}: {error}", file.display());
            process::exit(1);
        }
    }
}
