//! A progress bar on the terminal that gets the messages; none if they go elsewhere, or if the output
//! comes there line by line and so tells the progress itself.
use std::io::{self, IsTerminal, Write};

const WIDTH: usize = 30;
/// How much of a file's name is shown, so that the bar stays on one line.
const LONGEST_NAME: usize = 30;

pub struct Progress {
    shown: bool,
    done: usize,
    all: usize,
}

impl Progress {
    pub fn new(all: usize, line_by_line: bool) -> Self {
        let told = line_by_line && io::stdout().is_terminal();
        let progress = Self {
            shown: io::stderr().is_terminal() && !told,
            done: 0,
            all,
        };
        progress.show("");
        progress
    }

    /// One more is done, and this is its name.
    pub fn done(&mut self, file: &str) {
        self.done += 1;
        self.show(file);
    }

    fn show(&self, file: &str) {
        if self.shown {
            draw(&format!("{} {}", bar(self.done, self.all), end(file)));
        }
    }

    pub fn clear(&self) {
        if self.shown {
            draw("");
        }
    }
}

/// Over what stands on the line. A bar that cannot be drawn is not worth failing for.
fn draw(text: &str) {
    let mut out = io::stderr().lock();
    let _ = write!(out, "\r\x1b[K{text}").and_then(|()| out.flush());
}

fn bar(done: usize, all: usize) -> String {
    let filled = WIDTH * done / all.max(1);
    let (marks, blanks) = ("#".repeat(filled), " ".repeat(WIDTH - filled));
    format!("[{marks}{blanks}] {done} of {all}")
}

/// The last letters of a name, which tell more than the first, without what would move the cursor.
fn end(file: &str) -> String {
    let letters: Vec<char> = file.chars().filter(|letter| !letter.is_control()).collect();
    letters[letters.len().saturating_sub(LONGEST_NAME)..]
        .iter()
        .collect()
}

#[cfg(test)]
mod tests {
    use super::*;

    #[test]
    fn the_bar_fills() {
        assert_eq!(bar(0, 4), format!("[{}] 0 of 4", " ".repeat(30)));
        assert_eq!(
            bar(2, 4),
            format!("[{}{}] 2 of 4", "#".repeat(15), " ".repeat(15))
        );
        assert_eq!(bar(4, 4), format!("[{}] 4 of 4", "#".repeat(30)));
    }

    #[test]
    fn long_names_show_their_end() {
        assert_eq!(end("a.cif"), "a.cif");
        assert_eq!(end(&format!("x\x1b{}", "y".repeat(30))), "y".repeat(30));
    }
}
