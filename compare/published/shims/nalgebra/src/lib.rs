//! Stands for nalgebra: the points and vectors that the published files name.
//! Reading and writing reach a point's `new`, `x`, `y` and `z`; a cell block, a vector's `norm` and `angle`.
use std::ops::{AddAssign, Deref, Div, Mul};

#[derive(Debug, Clone, Copy, PartialEq)]
pub struct Vector3<T> {
    pub x: T,
    pub y: T,
    pub z: T,
}

impl Vector3<f64> {
    pub fn zeros() -> Self {
        Self::from([0.0; 3])
    }

    fn dot(&self, other: &Self) -> f64 {
        self.x * other.x + self.y * other.y + self.z * other.z
    }

    pub fn norm(&self) -> f64 {
        self.dot(self).sqrt()
    }

    pub fn angle(&self, other: &Self) -> f64 {
        let lengths = self.norm() * other.norm();
        if lengths == 0.0 {
            return 0.0;
        }
        (self.dot(other) / lengths).clamp(-1.0, 1.0).acos()
    }
}

impl From<[f64; 3]> for Vector3<f64> {
    fn from([x, y, z]: [f64; 3]) -> Self {
        Self { x, y, z }
    }
}

impl AddAssign for Vector3<f64> {
    fn add_assign(&mut self, other: Self) {
        *self = Self::from([self.x + other.x, self.y + other.y, self.z + other.z]);
    }
}

impl Mul<f64> for Vector3<f64> {
    type Output = Self;

    fn mul(self, factor: f64) -> Self {
        Self::from([self.x * factor, self.y * factor, self.z * factor])
    }
}

impl Div<f64> for Vector3<f64> {
    type Output = Self;

    fn div(self, divisor: f64) -> Self {
        Self::from([self.x / divisor, self.y / divisor, self.z / divisor])
    }
}

#[derive(Debug, Clone, Copy, PartialEq)]
pub struct Point3<T> {
    pub coords: Vector3<T>,
}

impl Point3<f64> {
    pub fn new(x: f64, y: f64, z: f64) -> Self {
        Self::from(Vector3 { x, y, z })
    }

    pub fn origin() -> Self {
        Self::from(Vector3::zeros())
    }
}

impl From<Vector3<f64>> for Point3<f64> {
    fn from(coords: Vector3<f64>) -> Self {
        Self { coords }
    }
}

impl<T> Deref for Point3<T> {
    type Target = Vector3<T>;

    fn deref(&self) -> &Vector3<T> {
        &self.coords
    }
}

impl AddAssign<&Vector3<f64>> for Point3<f64> {
    fn add_assign(&mut self, vector: &Vector3<f64>) {
        self.coords += *vector;
    }
}

pub fn distance_squared(a: &Point3<f64>, b: &Point3<f64>) -> f64 {
    let between = Vector3::from([b.x - a.x, b.y - a.y, b.z - a.z]);
    between.dot(&between)
}

pub fn distance(a: &Point3<f64>, b: &Point3<f64>) -> f64 {
    distance_squared(a, b).sqrt()
}
