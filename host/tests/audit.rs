//! What intake-audit prints, and how it ends.
mod folder;

use folder::{Folder, case};
use std::collections::BTreeSet;
use std::fs::{self, File};
use std::io::{BufRead, BufReader};
use std::process::{Output, Stdio};
use std::sync::mpsc;
use std::thread;
use std::time::Duration;
use structure_intake::LONGEST_TEXT;

/// A folder with a file for each outcome.
fn outcomes(test: &str) -> Folder {
    let folder = Folder::new(&format!("audit-{test}"));
    let sure = case().replace(" ?", " 1");
    let twin = "ATOM C CA MSE A 7 9 9 9 0.6\n";
    let skipped = ["7 1.5", "7 9", "9 0.25"].iter().fold(case(), |text, row| {
        text.replace(row, &format!("{} ?", &row[..1]))
    });
    folder.write("assumed.cif", case());
    folder.write("comma.cif", case().replace("0.6", "0,6"));
    folder.write("merged.cif", sure.replace(twin, &twin.repeat(3)));
    folder.write("both.cif", case().replace(twin, &twin.repeat(3)));
    folder.write("half.cif", sure.replace(twin, &twin.repeat(2)));
    folder.write("sure.cif", sure);
    folder.write("skipped.cif", skipped);
    folder.write("empty.cif", "");
    folder.write(
        "page.cif",
        "<!DOCTYPE html>\n<html><p>Not found</p></html>\n",
    );
    let of_pdb = "ATOM      1  CA  MET A   7       1.500  -0.000   2.000  1.00  0.00           C\n";
    folder.write("pdb.cif", of_pdb);
    folder.write("beyond.cif", case().replace("9 9 9 0.6", "9 9 9 1e-1"));
    folder.write("a\"b\\c.cif", case());
    folder
}

fn audit(folder: &Folder, arguments: &[&str]) -> Output {
    let mut audit = folder.command(env!("CARGO_BIN_EXE_intake-audit"), arguments);
    audit.output().expect("the audit runs")
}

fn printed(output: &Output) -> String {
    let messages = String::from_utf8_lossy(&output.stderr);
    assert_eq!(messages, "", "no bar in a pipe");
    String::from_utf8(output.stdout.clone()).expect("the audit prints text")
}

#[test]
fn the_table_tells_what_became_of_each_file() {
    let folder = outcomes("table");
    let files = [
        "sure.cif",
        "half.cif",
        "assumed.cif",
        "comma.cif",
        "merged.cif",
        "both.cif",
        "skipped.cif",
        "empty.cif",
        "page.cif",
        "pdb.cif",
        "beyond.cif",
        "none.cif",
    ];
    let output = audit(&folder, &files);
    let expected = "   file         chains  residues  atoms  rows  skipped  outdone  assumed  outcome
   sure.cif          1         2      2     3        0        1        0  taken
   half.cif          1         2      2     4        0        2        0  taken
!  assumed.cif       1         2      2     3        0        1        1  taken, 1 occupancy assumed
!  comma.cif         1         2      2     3        0        1        3  taken, 3 occupancies assumed
!  merged.cif        1         2      2     5        0        3        0  taken, 3 of 5 unskipped rows outdone
!  both.cif          1         2      2     5        0        3        1  taken, 3 of 5 unskipped rows outdone, 1 occupancy assumed
!  skipped.cif       0         0      0     3        3        0        0  taken, no atoms
!  empty.cif         0         0      0     0        0        0        0  taken, no rows
!  page.cif          0         0      0     0        0        0        0  taken, no rows
!  pdb.cif           0         0      0     0        0        0        0  taken, no rows
   beyond.cif        -         -      -     -        -        -        -  refused: line 13: the occupancy is beyond reach
   none.cif          -         -      -     -        -        -        -  cannot be read: No such file or directory (os error 2)
12 files: 10 taken, 8 of them marked (!); 1 refused; 1 cannot be read
";
    assert_eq!(printed(&output), expected);
}

#[test]
fn the_status_tells_the_worst() {
    let folder = outcomes("status");
    let status = |arguments: &[&str]| audit(&folder, arguments).status.code();
    assert_eq!(status(&["sure.cif", "assumed.cif"]), Some(0));
    assert_eq!(status(&["sure.cif", "beyond.cif", "assumed.cif"]), Some(1));
    assert_eq!(status(&["none.cif", "beyond.cif"]), Some(2));
    assert_eq!(status(&[]), Some(2));
    assert_eq!(status(&["--jsn", "sure.cif"]), Some(2));
    assert_eq!(status(&["--jobs", "0", "sure.cif"]), Some(2));
    assert_eq!(status(&["--help"]), Some(0));
}

#[test]
fn no_mark_is_let_pass_where_that_is_asked() {
    let folder = outcomes("strict");
    for file in ["assumed.cif", "merged.cif", "skipped.cif", "empty.cif"] {
        let status = |arguments: &[&str]| audit(&folder, arguments).status.code();
        assert_eq!(status(&["sure.cif", file]), Some(0), "{file}");
        assert_eq!(status(&["--strict", "sure.cif", file]), Some(1), "{file}");
        let arguments = ["--json", "--strict", file, "sure.cif"];
        assert_eq!(status(&arguments), Some(1), "{file}");
        assert_eq!(status(&["--strict", file, "none.cif"]), Some(2), "{file}");
    }
    let sure = audit(&folder, &["--strict", "sure.cif", "half.cif"]);
    assert_eq!(sure.status.code(), Some(0));
}

/// No more of it is read than shows that it is too long.
#[test]
fn a_text_that_is_too_long_is_refused() {
    let folder = Folder::new("audit-long");
    for (past, outcome) in [
        (0, "taken, no rows"),
        (1, "refused: the text is longer than 16,777,216 bytes"),
    ] {
        folder.write("long.cif", vec![b'\n'; LONGEST_TEXT + past]);
        let output = audit(&folder, &["long.cif"]);
        let printed = printed(&output);
        let line = printed.lines().nth(1).expect("the file has its line");
        assert!(line.ends_with(outcome), "{line}");
    }
}

#[test]
fn machines_get_an_object_to_a_line() {
    let folder = outcomes("json");
    let files = ["a\"b\\c.cif", "empty.cif", "beyond.cif", "none.cif"];
    let output = audit(&folder, &[&["--json", "--jobs", "1"], &files[..]].concat());
    let expected = r#"{"file":"a\"b\\c.cif","outcome":"taken","chains":1,"residues":2,"atoms":2,"rows":3,"skipped":0,"outdone":1,"assumed":1,"reasons":["occupancies assumed"]}
{"file":"empty.cif","outcome":"taken","chains":0,"residues":0,"atoms":0,"rows":0,"skipped":0,"outdone":0,"assumed":0,"reasons":["no rows"]}
{"file":"beyond.cif","outcome":"refused","number":8,"line":13,"detail":4,"sentence":"line 13: the occupancy is beyond reach"}
{"file":"none.cif","outcome":"unreadable","sentence":"No such file or directory (os error 2)"}
"#;
    assert_eq!(printed(&output), expected);
    assert_eq!(output.status.code(), Some(2));
}

/// So that what was found is not lost with a run that is ended: here the second file is still to come.
#[test]
fn a_line_comes_as_soon_as_its_file_is_done() {
    let folder = outcomes("lines");
    let arguments = ["--json", "--jobs", "1", "sure.cif", "-"];
    let mut audit = folder.command(env!("CARGO_BIN_EXE_intake-audit"), &arguments);
    let audit = audit.stdin(Stdio::piped()).stdout(Stdio::piped());
    let mut audit = audit.spawn().expect("the audit runs");
    let lines = BufReader::new(audit.stdout.take().expect("it is a pipe")).lines();
    let (sender, receiver) = mpsc::channel();
    let reader = thread::spawn(move || lines.for_each(|line| sender.send(line).expect("heard")));
    let next = || receiver.recv_timeout(Duration::from_secs(60));
    let first = next().expect("a line comes").expect("it is text");
    assert!(first.starts_with(r#"{"file":"sure.cif","#), "{first}");
    drop(audit.stdin.take());
    let second = next().expect("a line comes").expect("it is text");
    assert!(second.starts_with(r#"{"file":"-","#), "{second}");
    reader.join().expect("nothing is left to read");
    assert!(audit.wait().expect("the audit ends").success());
}

/// The first file takes longest, so that beside others it is done last.
#[test]
fn the_order_does_not_hang_on_the_jobs() {
    let folder = outcomes("jobs");
    folder.write("slow.txt", vec![b'\n'; LONGEST_TEXT]);
    let audit = |options: &[&str]| {
        let files = ["slow.txt", ".", "none.cif"];
        printed(&audit(&folder, &[options, &files].concat()))
    };
    let table = audit(&["--jobs", "1"]);
    let lines: Vec<&str> = table.lines().collect();
    assert_eq!(lines.len(), 1 + 14 + 1);
    let begins = ["!  slow.txt ", "!  ./a\"b\\c.cif ", "   none.cif "];
    for (line, begin) in [lines[1], lines[2], lines[14]].iter().zip(begins) {
        assert!(line.starts_with(begin), "{line}");
    }
    assert_eq!(audit(&["--jobs", "4"]), table);

    let sorted = |jobs| {
        let printed = audit(&["--json", "--jobs", jobs]);
        let lines: BTreeSet<String> = printed.lines().map(String::from).collect();
        lines
    };
    assert_eq!(sorted("1").len(), 14);
    assert_eq!(sorted("4"), sorted("1"));
}

#[test]
fn a_folder_is_walked_in_the_order_of_names() {
    let folder = Folder::new("audit-walk");
    for below in ["in/b", "in/empty", "in/d.cif", "none"] {
        fs::create_dir_all(folder.path(below)).expect("a folder can be made");
    }
    let names = [
        "in/c.cif",
        "in/b/z.mmcif",
        "in/b/a.CIF",
        "in/a.cif",
        "in/d.cif/e.cif",
    ];
    for name in names
        .iter()
        .chain(&["in/notes.txt", "in/a.cif.bak", "none/a.pdb"])
    {
        folder.write(name, case());
    }
    let output = audit(&folder, &["in", "none"]);
    let expected = "   file            chains  residues  atoms  rows  skipped  outdone  assumed  outcome
!  in/a.cif             1         2      2     3        0        1        1  taken, 1 occupancy assumed
!  in/b/a.CIF           1         2      2     3        0        1        1  taken, 1 occupancy assumed
!  in/b/z.mmcif         1         2      2     3        0        1        1  taken, 1 occupancy assumed
!  in/c.cif             1         2      2     3        0        1        1  taken, 1 occupancy assumed
!  in/d.cif/e.cif       1         2      2     3        0        1        1  taken, 1 occupancy assumed
   none                 -         -      -     -        -        -        -  cannot be read: no .cif or .mmcif file is in it
6 files: 5 taken, 5 of them marked (!); 0 refused; 1 cannot be read
";
    assert_eq!(printed(&output), expected);
    assert_eq!(output.status.code(), Some(2));
}

/// A link may lead back, and then the walk would have no end.
#[cfg(unix)]
#[test]
fn a_walk_enters_no_linked_folder() {
    let folder = Folder::new("audit-link");
    folder.write("a.cif", case());
    std::os::unix::fs::symlink(".", folder.path("loop")).expect("a link can be made");
    let output = audit(&folder, &["--json", "."]);
    assert_eq!(printed(&output).lines().count(), 1);
    // One that is named is walked.
    let output = audit(&folder, &["--json", "loop"]);
    assert!(printed(&output).starts_with(r#"{"file":"loop/a.cif","outcome":"taken""#));
}

#[test]
fn standard_input_is_a_file_too() {
    let folder = outcomes("input");
    let input = File::open(folder.path("beyond.cif")).expect("the file is there");
    let mut audit = folder.command(env!("CARGO_BIN_EXE_intake-audit"), &["sure.cif", "-"]);
    let output = audit.stdin(input).output().expect("the audit runs");
    let expected = "  file      chains  residues  atoms  rows  skipped  outdone  assumed  outcome
  sure.cif       1         2      2     3        0        1        0  taken
  -              -         -      -     -        -        -        -  refused: line 13: the occupancy is beyond reach
2 files: 1 taken, 0 of them marked (!); 1 refused; 0 cannot be read
";
    assert_eq!(printed(&output), expected);
    assert_eq!(output.status.code(), Some(1));
}

#[test]
fn the_version_is_that_of_the_crate() {
    let output = audit(&Folder::new("audit-version"), &["--version"]);
    let expected = concat!("intake-audit ", env!("CARGO_PKG_VERSION"), "\n");
    assert_eq!(printed(&output), expected);
    assert_eq!(output.status.code(), Some(0));
}

#[test]
fn the_readme_tells_every_field_and_reason() {
    let readme = fs::read_to_string(concat!(env!("CARGO_MANIFEST_DIR"), "/../README.md"));
    let readme = readme.expect("the readme is there");
    let fields: Vec<&str> = readme
        .lines()
        .filter(|line| line.starts_with("| `"))
        .collect();
    let output = audit(&outcomes("readme"), &["--json", ".", "none.cif"]);
    let printed = printed(&output);
    // Each text between quotes but file names and sentences, which hold more than small letters.
    let told = printed.lines().filter(|line| !line.contains('\\'));
    let words = told.flat_map(|line| line.split('"').skip(1).step_by(2));
    let plain = |word: &&str| {
        word.chars()
            .all(|letter| letter.is_ascii_lowercase() || letter == ' ')
    };
    let words: BTreeSet<&str> = words.filter(plain).collect();
    // Fourteen fields, three outcomes and four reasons.
    assert_eq!(words.len(), 14 + 3 + 4);
    for word in words {
        let quoted = format!("`{word}`");
        assert!(fields.iter().any(|line| line.contains(&quoted)), "{word}");
    }
}
