//! Where the archive of the proved library is not there, the crate can be checked all the same, and
//! a warning says what is missing.
use std::fs;
use std::path::Path;
use std::process::Command;

#[test]
fn the_crate_is_checked_with_a_warning() {
    let room = Path::new(env!("CARGO_TARGET_TMPDIR")).join("without_archive");
    // What an earlier check left there would answer for this one.
    let _ = fs::remove_dir_all(&room);
    let no_folder = room.join("no such folder");
    let check = Command::new(env!("CARGO"))
        .args(["check", "--offline"])
        .current_dir(env!("CARGO_MANIFEST_DIR"))
        .env("CARGO_TARGET_DIR", &room)
        .env("PROVED_LIB", &no_folder)
        .output()
        .expect("cargo runs");
    let told = String::from_utf8_lossy(&check.stderr);
    assert!(check.status.success(), "{told}");
    let archive = no_folder.join("libstructure_intake.a");
    let warning = format!("There is no file {}", archive.display());
    let mut warnings = told.lines().filter(|line| line.starts_with("warning: "));
    assert!(warnings.any(|line| line.contains(&warning)), "{told}");
}
