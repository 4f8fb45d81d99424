//! A folder of files for the tools to work on, removed in the end; and the case, of which most files
//! are made.
use std::path::{Path, PathBuf};
use std::process::{Command, Stdio};
use std::{env, fs, process};

pub struct Folder(PathBuf);

impl Folder {
    /// The name of the test keeps apart what runs at the same time.
    pub fn new(test: &str) -> Self {
        let folder = env::temp_dir().join(format!("intake-{test}-{}", process::id()));
        fs::create_dir_all(&folder).expect("a temporary folder can be made");
        Self(folder)
    }

    pub fn path(&self, name: &str) -> PathBuf {
        self.0.join(name)
    }

    pub fn write(&self, name: &str, text: impl AsRef<[u8]>) {
        fs::write(self.path(name), text).expect("a file can be written");
    }

    /// In this folder, with nothing on standard input.
    pub fn command(&self, tool: &str, arguments: &[&str]) -> Command {
        let mut command = Command::new(tool);
        command.args(arguments).current_dir(&self.0);
        command.stdin(Stdio::null());
        command
    }
}

impl Drop for Folder {
    fn drop(&mut self) {
        let _ = fs::remove_dir_all(&self.0);
    }
}

pub fn case() -> String {
    let case = Path::new(env!("CARGO_MANIFEST_DIR")).join("../examples/case.cif");
    fs::read_to_string(case).expect("the case is there")
}
