//! Counts what was compared, and shows the first few differences if there are any.
#[derive(Default)]
pub struct Tally {
    compared: usize,
    different: usize,
    shown: Vec<String>,
}

const MOST_SHOWN: usize = 10;

impl Tally {
    pub fn compare(&mut self, alike: bool, difference: impl FnOnce() -> String) {
        self.compared += 1;
        if alike {
            return;
        }
        self.different += 1;
        if self.shown.len() < MOST_SHOWN {
            self.shown.push(difference());
        }
    }

    pub fn compared(&self) -> usize {
        self.compared
    }

    pub fn is_empty(&self) -> bool {
        self.compared == 0
    }

    /// Says how many were compared, or fails if some differed.
    pub fn finish(self, what: &str) {
        println!("compared {} {what}, no difference", self.alike(what));
    }

    /// Says how many differed in the way that is described, or fails if some did not.
    pub fn finish_described(self, what: &str) {
        println!(
            "compared {} {what}, different as described",
            self.alike(what)
        );
    }

    /// How many were compared, if all were as they should be.
    fn alike(self, what: &str) -> usize {
        let shown = self.shown.join("\n");
        assert!(
            self.different == 0,
            "{} of {} {what} differ:\n{shown}",
            self.different,
            self.compared
        );
        self.compared
    }
}
