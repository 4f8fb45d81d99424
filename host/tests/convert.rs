//! What intake-convert writes, what it says, and that a failure changes nothing.
mod folder;

use folder::{Folder, case};
use std::fs::{self, File};
use std::io;
use std::process::Output;
use structure_intake::Room;

fn convert(folder: &Folder, arguments: &[&str]) -> Output {
    let mut convert = folder.command(env!("CARGO_BIN_EXE_intake-convert"), arguments);
    convert.output().expect("the tool runs")
}

/// The status and what standard error got.
fn ended(output: &Output) -> (Option<i32>, String) {
    assert_eq!(output.stdout, b"", "only a file is written");
    let messages = String::from_utf8_lossy(&output.stderr).into_owned();
    (output.status.code(), messages)
}

fn sure() -> String {
    case().replace(" ?", " 1")
}

/// More rows than the program and the smaller call have room for.
fn long() -> String {
    let mut text = sure();
    for sequence in 10..3_000 {
        text.push_str(&format!(
            "ATOM C CA ALA B {sequence} 1.25 -2 {sequence} 1\n"
        ));
    }
    text
}

fn written(text: &str) -> Vec<u8> {
    let mut room = Room::for_text(text.as_bytes());
    let (_, written) = room.intake_whole(text.as_bytes()).expect("it is taken in");
    written
}

/// The names in the folder, in order.
fn names(folder: &Folder) -> Vec<String> {
    let entries = fs::read_dir(folder.path(".")).expect("the folder is there");
    let name = |entry: fs::DirEntry| entry.file_name().into_string().expect("a plain name");
    let mut names: Vec<String> = entries.flatten().map(name).collect();
    names.sort_unstable();
    names
}

fn read(folder: &Folder, name: &str) -> Vec<u8> {
    fs::read(folder.path(name)).expect("the file is there")
}

const NOTHING: (Option<i32>, String) = (Some(0), String::new());

#[test]
fn what_is_written_is_what_the_crate_gives() {
    let folder = Folder::new("convert-written");
    for text in [sure(), long()] {
        folder.write("in.cif", &text);
        assert_eq!(ended(&convert(&folder, &["in.cif", "out.cif"])), NOTHING);
        assert_eq!(read(&folder, "out.cif"), written(&text));
        assert_eq!(read(&folder, "in.cif"), text.as_bytes());
        assert_eq!(names(&folder), ["in.cif", "out.cif"]);
    }
    assert_eq!(ended(&convert(&folder, &["in.cif", "in.cif"])), NOTHING);
    assert_eq!(read(&folder, "in.cif"), written(&long()));
}

#[test]
fn a_refused_text_leaves_the_output_as_it_was() {
    let folder = Folder::new("convert-refused");
    folder.write("beyond.cif", case().replace("9 9 9 0.6", "9 9 9 1e-1"));
    folder.write("unknown.cif", case().replace("HETATM", "ATOM"));
    folder.write("out.cif", "as it was");
    let before = names(&folder);
    for (file, sentence) in [
        (
            "beyond.cif",
            "beyond.cif:13: the occupancy is beyond reach\n",
        ),
        (
            "unknown.cif",
            "unknown.cif: residue 2 of the model is unknown and not marked HETATM\n",
        ),
    ] {
        for out in ["out.cif", "new.cif"] {
            let output = convert(&folder, &[file, out]);
            assert_eq!(ended(&output), (Some(1), sentence.to_string()));
        }
        assert_eq!(read(&folder, "out.cif"), b"as it was");
        assert_eq!(names(&folder), before);
    }
}

#[test]
fn what_cannot_be_read_or_written_is_told() {
    let folder = Folder::new("convert-failed");
    folder.write("in.cif", sure());
    folder.write("out.cif", "as it was");
    fs::create_dir(folder.path("folder")).expect("a folder can be made");
    let before = names(&folder);
    // The new file can be made, but cannot be moved to such a name.
    let long = "x".repeat(300);
    for [from, to, sentence] in [
        [
            "none.cif",
            "out.cif",
            "none.cif: cannot be read: No such file",
        ],
        [
            "folder",
            "out.cif",
            "folder: cannot be read: Is a directory",
        ],
        [
            "in.cif",
            "none/out.cif",
            "none/out.cif: cannot be written: No such file",
        ],
        [
            "in.cif",
            "folder",
            "folder: cannot be written: it is not a file\n",
        ],
        [
            "in.cif",
            &long,
            &format!("{long}: cannot be written: File name too long"),
        ],
    ] {
        let (status, told) = ended(&convert(&folder, &[from, to]));
        assert_eq!(status, Some(2), "{told}");
        assert!(told.starts_with(sentence), "{told}");
        assert_eq!(told.lines().count(), 1, "{told}");
        assert_eq!(read(&folder, "out.cif"), b"as it was");
        assert_eq!(names(&folder), before);
    }
    assert_eq!(ended(&convert(&folder, &["in.cif"])).0, Some(2));
}

#[test]
fn standard_input_and_output_can_be_named() {
    let folder = Folder::new("convert-standard");
    folder.write("in.cif", long());
    for (arguments, printed) in [
        (["-", "out.cif"], Vec::new()),
        (["-", "-"], written(&long())),
    ] {
        let input = File::open(folder.path("in.cif")).expect("the file is there");
        let mut convert = folder.command(env!("CARGO_BIN_EXE_intake-convert"), &arguments);
        let output = convert.stdin(input).output().expect("the tool runs");
        assert_eq!(output.status.code(), Some(0));
        assert_eq!(output.stdout, printed);
    }
    assert_eq!(read(&folder, "out.cif"), written(&long()));
    assert_eq!(names(&folder), ["in.cif", "out.cif"]);
}

#[test]
fn a_doubtful_text_is_written_and_told() {
    let folder = Folder::new("convert-doubtful");
    folder.write("in.cif", case());
    let told = (Some(0), "in.cif: 1 occupancy assumed\n".to_string());
    assert_eq!(ended(&convert(&folder, &["in.cif", "out.cif"])), told);
    assert_eq!(read(&folder, "out.cif"), written(&case()));
}

/// Whoever reads the old file reads it to its end: it is not written over, but another takes its place.
#[cfg(unix)]
#[test]
fn a_reader_of_the_old_file_is_not_disturbed() {
    let folder = Folder::new("convert-reader");
    folder.write("in.cif", sure());
    folder.write("out.cif", "as it was");
    let reader = File::open(folder.path("out.cif")).expect("the file is there");
    assert_eq!(ended(&convert(&folder, &["in.cif", "out.cif"])), NOTHING);
    let old = io::read_to_string(reader).expect("the old file can be read");
    assert_eq!(old, "as it was");
    assert_eq!(read(&folder, "out.cif"), written(&sure()));
}

#[cfg(unix)]
#[test]
fn links_and_permissions_stay() {
    use std::os::unix::fs::{PermissionsExt, symlink};
    let folder = Folder::new("convert-stay");
    folder.write("in.cif", sure());
    folder.write("out.cif", "as it was");
    symlink("out.cif", folder.path("link.cif")).expect("a link can be made");
    let permit = |mode| {
        let permissions = fs::Permissions::from_mode(mode);
        fs::set_permissions(folder.path("out.cif"), permissions).expect("they can be set");
    };
    permit(0o440);
    let told = "link.cif: cannot be written: it is write-protected\n".to_string();
    assert_eq!(
        ended(&convert(&folder, &["in.cif", "link.cif"])),
        (Some(2), told)
    );
    assert_eq!(read(&folder, "out.cif"), b"as it was");

    permit(0o640);
    assert_eq!(ended(&convert(&folder, &["in.cif", "link.cif"])), NOTHING);
    assert_eq!(read(&folder, "out.cif"), written(&sure()));
    let now = fs::metadata(folder.path("out.cif")).expect("the file is there");
    assert_eq!(now.permissions().mode() & 0o777, 0o640);
    assert!(folder.path("link.cif").is_symlink());
    assert_eq!(names(&folder), ["in.cif", "link.cif", "out.cif"]);
}
