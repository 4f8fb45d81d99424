//! The text of a file, or of standard input, which `-` stands for.
use std::fs::File;
use std::io::{self, Read};
use std::path::Path;
use structure_intake::LONGEST_TEXT;

/// A file of this name can still be named, as `./-`.
pub fn is_standard(file: &Path) -> bool {
    file.as_os_str() == "-"
}

pub fn read(file: &Path) -> io::Result<Vec<u8>> {
    if is_standard(file) {
        text_of(io::stdin().lock())
    } else {
        text_of(File::open(file)?)
    }
}

/// A text that is too long is refused whatever it holds, so no more is read than shows that it is.
fn text_of(source: impl Read) -> io::Result<Vec<u8>> {
    let mut text = Vec::new();
    let longest = LONGEST_TEXT as u64 + 1;
    source.take(longest).read_to_end(&mut text)?;
    Ok(text)
}

#[cfg(test)]
mod tests {
    use super::*;

    #[test]
    fn no_more_is_read_than_shows_that_a_text_is_too_long() {
        let text = text_of(io::repeat(b' ')).expect("blanks can be read");
        assert_eq!(text.len(), LONGEST_TEXT + 1);
    }

    #[test]
    fn a_file_can_have_the_name_of_standard_input() {
        assert!(is_standard(Path::new("-")));
        assert!(!is_standard(Path::new("./-")));
    }
}
