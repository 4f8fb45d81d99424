//! The greatest resident memory of one reading, each in a process of its own.
use crate::files::File;
use crate::sides::Side;
use compare::records::{Records, Room};
use std::process::Command;
use std::{env, fs};

/// The word that makes this program such a process.
pub const WORD: &str = "peak";

/// What is read in the process; `None` makes the text and reads nothing.
pub type Reading = Option<Side>;

fn name(reading: Reading) -> &'static str {
    reading.map_or("nothing", Side::name)
}

/// The greatest resident memory, in bytes, of a process that makes the text and does the reading.
pub fn peak(number: usize, reading: Reading) -> u64 {
    let program = env::current_exe().expect("this program has a path");
    let output = Command::new(program)
        .args([WORD, &number.to_string(), name(reading)])
        .output()
        .expect("this program can be started again");
    let told = String::from_utf8_lossy(&output.stdout);
    told.trim().parse().unwrap_or_else(|_| {
        let wrong = String::from_utf8_lossy(&output.stderr);
        panic!("no peak of {} was told: {told}{wrong}", name(reading))
    })
}

/// The work of such a process: it prints its own greatest resident memory.
pub fn serve(file: &File, reading: &str) {
    let text = file.text();
    if let Some(side) = Side::ALL.into_iter().find(|side| side.name() == reading) {
        let room = match side {
            Side::Ours => file.room(),
            Side::Published => Room {
                chains: 0,
                residues: 0,
                atoms: 0,
            },
        };
        side.time(&text, &mut Records::new(room));
    }
    println!("{}", own_peak());
}

fn own_peak() -> u64 {
    let status = fs::read_to_string("/proc/self/status").expect("the system tells of processes");
    let line = status.lines().find_map(|line| line.strip_prefix("VmHWM:"));
    let kilobytes = line.and_then(|line| line.trim().strip_suffix(" kB"));
    let kilobytes: u64 = kilobytes
        .and_then(|kilobytes| kilobytes.trim().parse().ok())
        .expect("the system tells the greatest resident memory");
    1024 * kilobytes
}
