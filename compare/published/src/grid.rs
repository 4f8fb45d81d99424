//! Stands for model/grid.rs, which is not at hand.
//! `Structure::spatial_grid` names it; neither the reader nor the writer comes there.
use crate::model::types::Point;
use std::marker::PhantomData;

pub struct Grid<T>(PhantomData<T>);

impl<T> Grid<T> {
    pub fn new(_: Vec<(Point, T)>, _: f64) -> Self {
        unreachable!("no grid is made while reading or writing")
    }
}
