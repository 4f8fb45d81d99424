//! Stands for utils/parallel.rs, which is not at hand: plain iterators under the parallel names.
//! They let the model compile; neither the reader nor the writer calls them.
use std::iter::FlatMap;
use std::slice::{Iter, IterMut};

pub trait ParallelIterator: Iterator + Sized {
    fn flat_map_iter<U: IntoIterator, F: FnMut(Self::Item) -> U>(
        self,
        f: F,
    ) -> FlatMap<Self, U, F> {
        self.flat_map(f)
    }
}

impl<I: Iterator> ParallelIterator for I {}

pub trait IndexedParallelIterator: ParallelIterator {}

impl<I: Iterator> IndexedParallelIterator for I {}

pub trait IntoParallelRefIterator<T> {
    fn par_iter(&self) -> Iter<'_, T>;
}

impl<T> IntoParallelRefIterator<T> for Vec<T> {
    fn par_iter(&self) -> Iter<'_, T> {
        self.iter()
    }
}

pub trait IntoParallelRefMutIterator<T> {
    fn par_iter_mut(&mut self) -> IterMut<'_, T>;
}

impl<T> IntoParallelRefMutIterator<T> for Vec<T> {
    fn par_iter_mut(&mut self) -> IterMut<'_, T> {
        self.iter_mut()
    }
}
