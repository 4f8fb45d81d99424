//! A process that is asked again and again, a line to each question, and answers in lines. What does not
//! answer in time is ended.
use std::io::{BufRead, BufReader, Write};
use std::process::{Child, ChildStdin, Command, Stdio};
use std::sync::mpsc::{self, Receiver, RecvTimeoutError};
use std::thread;
use std::time::Duration;

pub struct Asked {
    child: Child,
    questions: ChildStdin,
    answers: Receiver<String>,
}

impl Asked {
    pub fn start(command: &mut Command) -> Self {
        let mut child = command
            .stdin(Stdio::piped())
            .stdout(Stdio::piped())
            .spawn()
            .expect("the program starts");
        let questions = child.stdin.take().expect("its input is a pipe");
        let told = BufReader::new(child.stdout.take().expect("its output is a pipe"));
        // A pipe can't be waited for with a limit, a channel can.
        let (sender, answers) = mpsc::channel();
        thread::spawn(move || {
            let mut lines = told.lines().map_while(Result::ok);
            lines.try_for_each(|line| sender.send(line))
        });
        Self {
            child,
            questions,
            answers,
        }
    }

    pub fn ask(&mut self) {
        self.questions
            .write_all(b"\n")
            .expect("the process listens");
    }

    /// The next line that it answers.
    pub fn answer(&self) -> String {
        self.answers.recv().expect("the process answers")
    }

    /// The same, or nothing where it takes longer than that.
    pub fn answer_within(&self, limit: Duration) -> Option<String> {
        match self.answers.recv_timeout(limit) {
            Ok(line) => Some(line),
            Err(RecvTimeoutError::Timeout) => None,
            Err(RecvTimeoutError::Disconnected) => panic!("the process answers"),
        }
    }
}

impl Drop for Asked {
    fn drop(&mut self) {
        let _ = self.child.kill();
        let _ = self.child.wait();
    }
}

/// A time as such a process tells it.
pub fn nanoseconds(line: &str) -> Duration {
    Duration::from_nanos(line.trim().parse().expect("a time is told"))
}
