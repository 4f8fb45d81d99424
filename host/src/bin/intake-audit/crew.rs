//! Many files at a time: each thread audits the next one that is left, with room of its own, and what
//! it finds is handed on at once.
use crate::audit::Audit;
use crate::walk::Found;
use std::io;
use std::sync::atomic::{AtomicUsize, Ordering};
use std::sync::mpsc;
use std::thread;

/// Hands each audit to `done` with its place in the list, as they come. If `done` fails, the files that
/// no thread has begun are left.
pub fn audit_all(
    list: &[Found],
    jobs: usize,
    mut done: impl FnMut(usize, Audit) -> io::Result<()>,
) -> io::Result<()> {
    let next = AtomicUsize::new(0);
    let (sender, receiver) = mpsc::channel();
    let work = |sender: mpsc::Sender<(usize, Audit)>| {
        loop {
            let place = next.fetch_add(1, Ordering::Relaxed);
            let Some(found) = list.get(place) else { break };
            if sender.send((place, Audit::of(found))).is_err() {
                break;
            }
        }
    };
    thread::scope(|scope| {
        for _ in 0..jobs.min(list.len()) {
            let sender = sender.clone();
            scope.spawn(|| work(sender));
        }
        // The receiver ends with the last sender, so none is kept here.
        drop(sender);
        receiver
            .into_iter()
            .try_for_each(|(place, audit)| done(place, audit))
    })
}

#[cfg(test)]
mod tests {
    use super::*;

    fn lost(name: &str) -> Found {
        Found::Lost(name.into(), "gone".to_string())
    }

    #[test]
    fn each_is_handed_on_once_with_its_place() {
        let list = ["a", "b", "c", "d", "e"].map(lost);
        for jobs in [1, 3, 9] {
            let mut places = Vec::new();
            let all = audit_all(&list, jobs, |place, audit| {
                let Found::Lost(file, _) = &list[place] else {
                    panic!("only lost ones are listed")
                };
                assert_eq!(&audit.file, file);
                places.push(place);
                Ok(())
            });
            assert!(all.is_ok());
            places.sort_unstable();
            assert_eq!(places, [0, 1, 2, 3, 4]);
        }
    }

    #[test]
    fn a_failure_ends_the_work() {
        let list: Vec<Found> = (0..100).map(|_| lost("a")).collect();
        let mut handed_on = 0;
        let all = audit_all(&list, 2, |_, _| {
            handed_on += 1;
            Err(io::ErrorKind::BrokenPipe.into())
        });
        let failure = all.expect_err("the failure is told");
        assert_eq!(failure.kind(), io::ErrorKind::BrokenPipe);
        assert_eq!(handed_on, 1);
    }
}
