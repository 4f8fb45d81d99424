//! Writes a file whole or not at all: a new file in the same folder takes its place once all is written.
use crate::input;
use std::fs::{self, File, Metadata};
use std::io::{self, Write};
use std::path::{Path, PathBuf};
use std::process;

/// `-` is standard output, of which what is written cannot be taken back.
pub fn write_whole(out: &Path, text: &[u8]) -> io::Result<()> {
    if input::is_standard(out) {
        let mut out = io::stdout().lock();
        return out.write_all(text).and_then(|()| out.flush());
    }
    // A link stays, and the file that it leads to is replaced.
    let place = fs::canonicalize(out).unwrap_or_else(|_| out.to_path_buf());
    let before = fs::metadata(&place).ok();
    before.as_ref().map_or(Ok(()), replaceable)?;
    let (part, file) = new_beside(&place)?;
    let moved = fill(file, text, before).and_then(|()| fs::rename(&part, &place));
    if moved.is_err() {
        // What went wrong first is what is told.
        let _ = fs::remove_file(&part);
    }
    moved
}

/// A move would put a file in the place of a device or a pipe, and would not heed write protection.
fn replaceable(before: &Metadata) -> io::Result<()> {
    if !before.is_file() {
        Err(io::Error::other("it is not a file"))
    } else if before.permissions().readonly() {
        Err(io::Error::other("it is write-protected"))
    } else {
        Ok(())
    }
}

/// Under a name that no file has, since a run that was killed may have left one.
fn new_beside(place: &Path) -> io::Result<(PathBuf, File)> {
    let mut number = 0;
    loop {
        let part = place.with_file_name(format!(".intake-convert-{}-{number}", process::id()));
        match File::create_new(&part) {
            Err(error) if error.kind() == io::ErrorKind::AlreadyExists => number += 1,
            made => return made.map(|file| (part, file)),
        }
    }
}

/// Whoever could read the file that is replaced can read the new one.
fn fill(mut file: File, text: &[u8], before: Option<Metadata>) -> io::Result<()> {
    if let Some(before) = before {
        file.set_permissions(before.permissions())?;
    }
    file.write_all(text)?;
    // On the disk before it is moved, or a crash could leave an empty file in the place.
    file.sync_all()
}
