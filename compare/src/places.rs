//! Orders in which rows may come: each of so many places once, in orders that are hard for what keeps
//! entries in order.
use crate::random::Random;
use crate::sites::shuffle;

/// Every run shuffles alike.
const SEED: u64 = 11;

#[derive(Debug, Clone, Copy, PartialEq, Eq)]
pub enum Order {
    Ascending,
    Backwards,
    Shuffled,
    /// From the middle outwards, one below and one above in turn.
    Outwards,
    /// So many runs that ascend, a place of each in turn.
    Runs(usize),
    /// The same with every other run backwards.
    RunsBothWays(usize),
}

impl Order {
    pub fn places(self, count: usize) -> Vec<usize> {
        let mut places: Vec<usize> = (0..count).collect();
        match self {
            Self::Ascending => places,
            Self::Backwards => {
                places.reverse();
                places
            }
            Self::Shuffled => {
                shuffle(&mut Random::new(SEED), &mut places);
                places
            }
            Self::Outwards => {
                let above = places.split_off(count / 2);
                in_turn(&[places.into_iter().rev().collect(), above])
            }
            Self::Runs(runs) => in_turn(&cut(&places, runs)),
            Self::RunsBothWays(runs) => {
                let mut runs = cut(&places, runs);
                runs.iter_mut().step_by(2).for_each(|run| run.reverse());
                in_turn(&runs)
            }
        }
    }
}

/// So many runs of the same length, of which the last may have fewer, or none be left for it.
fn cut(places: &[usize], runs: usize) -> Vec<Vec<usize>> {
    let length = places.len().div_ceil(runs).max(1);
    places.chunks(length).map(<[usize]>::to_vec).collect()
}

/// The first of each run, then the second of each, and so on.
fn in_turn(runs: &[Vec<usize>]) -> Vec<usize> {
    let longest = runs.iter().map(Vec::len).max().unwrap_or(0);
    let of_turn = |turn: usize| runs.iter().filter_map(move |run| run.get(turn).copied());
    (0..longest).flat_map(of_turn).collect()
}
