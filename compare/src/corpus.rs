//! Real files, from the folder that STRUCTURE_CORPUS names; without it, from shared/corpus beside
//! the repository.
use crate::texts::{self, Text};
use std::path::{Path, PathBuf};
use std::{env, fs, io};

/// The texts of all files, in the order of their names. Where there are none, one sentence says
/// what to set.
pub fn files() -> Vec<String> {
    let beside_the_repository = Path::new(env!("CARGO_MANIFEST_DIR")).join("../../shared/corpus");
    let folder = env::var_os("STRUCTURE_CORPUS").map_or(beside_the_repository, PathBuf::from);
    let files = read(&folder).unwrap_or_default();
    assert!(
        !files.is_empty(),
        "There is no folder of readable files {}: set STRUCTURE_CORPUS to the full path of the folder that holds the mmCIF files.",
        folder.display()
    );
    files
}

fn read(folder: &Path) -> io::Result<Vec<String>> {
    let paths: io::Result<Vec<PathBuf>> = fs::read_dir(folder)?
        .map(|entry| entry.map(|entry| entry.path()))
        .collect();
    let mut paths = paths?;
    // Folders beside the mmCIF files hold files of other formats.
    paths.retain(|path| path.is_file());
    paths.sort();
    paths.iter().map(fs::read_to_string).collect()
}

/// The lines of all files, each once, as far as they have only bytes that may stand on a line.
pub fn lines() -> Vec<Text> {
    let allowed = texts::line_bytes();
    let mut lines = Vec::new();
    for file in files() {
        let inside = file.lines().map(Text::from);
        lines.extend(inside.filter(|line| line.iter().all(|byte| allowed.contains(byte))));
    }
    texts::distinct(lines)
}
