//! What the names of the command line stand for: a folder for every mmCIF file in it and below, in the
//! order of their names, all else for itself.
use crate::input;
use std::ffi::OsStr;
use std::fs::{self, DirEntry};
use std::io;
use std::path::{Path, PathBuf};

pub enum Found {
    Text(PathBuf),
    /// A folder of which nothing can be audited, and why.
    Lost(PathBuf, String),
}

pub fn all_of(named: &[PathBuf]) -> Vec<Found> {
    let mut found = Vec::new();
    for path in named {
        let before = found.len();
        if input::is_standard(path) || !path.is_dir() {
            found.push(Found::Text(path.clone()));
        } else {
            below(path, &mut found);
        }
        // A folder named by mistake must not pass for one without faults.
        if found.len() == before {
            let why = "no .cif or .mmcif file is in it".to_string();
            found.push(Found::Lost(path.clone(), why));
        }
    }
    found
}

fn below(folder: &Path, found: &mut Vec<Found>) {
    let entries = match sorted(folder) {
        Ok(entries) => entries,
        Err(error) => return found.push(Found::Lost(folder.to_path_buf(), error.to_string())),
    };
    for entry in entries {
        let path = entry.path();
        // Linked folders are passed over, since a link may lead back to where the walk is.
        if entry.file_type().is_ok_and(|kind| kind.is_dir()) {
            below(&path, found);
        } else if is_mmcif(&path) {
            found.push(Found::Text(path));
        }
    }
}

fn sorted(folder: &Path) -> io::Result<Vec<DirEntry>> {
    let mut entries: Vec<DirEntry> = fs::read_dir(folder)?.collect::<io::Result<_>>()?;
    entries.sort_by_key(DirEntry::file_name);
    Ok(entries)
}

fn is_mmcif(path: &Path) -> bool {
    let is = |ending: &OsStr| {
        ["cif", "mmcif"]
            .iter()
            .any(|&of| ending.eq_ignore_ascii_case(of))
    };
    path.extension().is_some_and(is)
}

#[cfg(test)]
mod tests {
    use super::*;

    #[test]
    fn the_ending_tells_an_mmcif_file() {
        for name in ["a.cif", "a.mmcif", "A.CIF", "a.b.mmCIF"] {
            assert!(is_mmcif(Path::new(name)), "{name}");
        }
        for name in ["a.ent", "a.pdb", "cif", ".cif", "a.cif.gz", "a.cif~"] {
            assert!(!is_mmcif(Path::new(name)), "{name}");
        }
    }
}
