//! Stand-in for the little of nalgebra that the kernel's text uses.
//!
//! Operators act on each component; a quotient divides each component; a dot adds the first product to the second, then
//! the third; a squared norm is the dot with itself. Indexing goes through a slice of the three numbers, as in nalgebra.
//! `DMatrix` is only there to compile: its singular values are never asked for.

use std::iter::Sum;
use std::ops::{Add, AddAssign, Div, DivAssign, Index, IndexMut, Mul, MulAssign, Neg, Sub, SubAssign};

#[derive(Clone, Copy, Debug, Default, PartialEq)]
#[repr(C)]
pub struct Vector3<T> {
    pub x: T,
    pub y: T,
    pub z: T,
}

impl Vector3<f64> {
    #[inline(always)]
    pub const fn new(x: f64, y: f64, z: f64) -> Self {
        Self { x, y, z }
    }

    #[inline(always)]
    pub fn zeros() -> Self {
        Self::new(0.0, 0.0, 0.0)
    }

    #[inline(always)]
    pub fn repeat(value: f64) -> Self {
        Self::new(value, value, value)
    }

    #[inline(always)]
    pub fn x() -> Self {
        Self::new(1.0, 0.0, 0.0)
    }

    #[inline(always)]
    pub fn y() -> Self {
        Self::new(0.0, 1.0, 0.0)
    }

    #[inline(always)]
    pub fn as_slice(&self) -> &[f64] {
        // three f64 in a row (repr(C))
        unsafe { std::slice::from_raw_parts(&self.x, 3) }
    }

    #[inline(always)]
    fn as_mut_slice(&mut self) -> &mut [f64] {
        unsafe { std::slice::from_raw_parts_mut(&mut self.x, 3) }
    }

    #[inline(always)]
    pub fn iter(&self) -> std::slice::Iter<'_, f64> {
        self.as_slice().iter()
    }

    #[inline(always)]
    pub fn dot(&self, right: &Self) -> f64 {
        self.x * right.x + self.y * right.y + self.z * right.z
    }

    #[inline(always)]
    pub fn norm_squared(&self) -> f64 {
        self.dot(self)
    }

    #[inline(always)]
    pub fn norm(&self) -> f64 {
        self.norm_squared().sqrt()
    }

    pub fn normalize(&self) -> Self {
        *self / self.norm()
    }

    pub fn cross(&self, right: &Self) -> Self {
        Self::new(
            self.y * right.z - self.z * right.y,
            self.z * right.x - self.x * right.z,
            self.x * right.y - self.y * right.x,
        )
    }

    #[inline(always)]
    pub fn component_div(&self, right: &Self) -> Self {
        Self::new(self.x / right.x, self.y / right.y, self.z / right.z)
    }
}

impl Index<usize> for Vector3<f64> {
    type Output = f64;
    #[inline(always)]
    fn index(&self, component: usize) -> &f64 {
        &self.as_slice()[component]
    }
}

impl IndexMut<usize> for Vector3<f64> {
    #[inline(always)]
    fn index_mut(&mut self, component: usize) -> &mut f64 {
        &mut self.as_mut_slice()[component]
    }
}

impl Add for Vector3<f64> {
    type Output = Self;
    #[inline(always)]
    fn add(self, right: Self) -> Self {
        Self::new(self.x + right.x, self.y + right.y, self.z + right.z)
    }
}

impl Sub for Vector3<f64> {
    type Output = Self;
    #[inline(always)]
    fn sub(self, right: Self) -> Self {
        Self::new(self.x - right.x, self.y - right.y, self.z - right.z)
    }
}

impl Sub<Vector3<f64>> for &Vector3<f64> {
    type Output = Vector3<f64>;
    #[inline(always)]
    fn sub(self, right: Vector3<f64>) -> Vector3<f64> {
        *self - right
    }
}

impl Mul<f64> for Vector3<f64> {
    type Output = Self;
    #[inline(always)]
    fn mul(self, right: f64) -> Self {
        Self::new(self.x * right, self.y * right, self.z * right)
    }
}

impl Div<f64> for Vector3<f64> {
    type Output = Self;
    #[inline(always)]
    fn div(self, right: f64) -> Self {
        Self::new(self.x / right, self.y / right, self.z / right)
    }
}

impl Neg for Vector3<f64> {
    type Output = Self;
    #[inline(always)]
    fn neg(self) -> Self {
        Self::new(-self.x, -self.y, -self.z)
    }
}

impl AddAssign for Vector3<f64> {
    #[inline(always)]
    fn add_assign(&mut self, right: Self) {
        *self = *self + right;
    }
}

impl SubAssign for Vector3<f64> {
    #[inline(always)]
    fn sub_assign(&mut self, right: Self) {
        *self = *self - right;
    }
}

impl MulAssign<f64> for Vector3<f64> {
    #[inline(always)]
    fn mul_assign(&mut self, right: f64) {
        *self = *self * right;
    }
}

impl DivAssign<f64> for Vector3<f64> {
    #[inline(always)]
    fn div_assign(&mut self, right: f64) {
        *self = *self / right;
    }
}

impl<'a> Sum<&'a Vector3<f64>> for Vector3<f64> {
    fn sum<I: Iterator<Item = &'a Vector3<f64>>>(values: I) -> Self {
        values.fold(Self::zeros(), |sum, value| sum + *value)
    }
}

/// Held by the workspace for the polish, never computed with here.
#[derive(Clone, Copy, Debug)]
pub struct Matrix3<T>(pub [T; 9]);

impl Matrix3<f64> {
    pub fn zeros() -> Self {
        Self([0.0; 9])
    }
}

/// The plan's rigidity test is never run here.
pub struct DMatrix<T> {
    columns: usize,
    values: Vec<T>,
}

pub struct Svd {
    pub singular_values: Vec<f64>,
}

impl DMatrix<f64> {
    pub fn zeros(rows: usize, columns: usize) -> Self {
        Self { columns, values: vec![0.0; rows * columns] }
    }

    pub fn svd(self, _left: bool, _right: bool) -> Svd {
        unreachable!("the plan is built without its checks")
    }
}

impl Index<(usize, usize)> for DMatrix<f64> {
    type Output = f64;
    fn index(&self, (row, column): (usize, usize)) -> &f64 {
        &self.values[row * self.columns + column]
    }
}

impl IndexMut<(usize, usize)> for DMatrix<f64> {
    fn index_mut(&mut self, (row, column): (usize, usize)) -> &mut f64 {
        &mut self.values[row * self.columns + column]
    }
}
