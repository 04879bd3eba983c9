//! Stand-in for the little of nalgebra that the text uses. The order of operations is document 01's: `norm` is the root of
//! `(x·x + y·y) + z·z`, `cross` is `(y1·z2 - z1·y2, z1·x2 - x1·z2, x1·y2 - y1·x2)`, and the others go by component.
use std::ops::{Add, Deref, DerefMut, Div, Index, IndexMut, Mul, Neg, Sub};

#[derive(Debug, Clone, Copy, PartialEq)]
#[repr(C)]
pub struct Vector3<T> {
    pub x: T,
    pub y: T,
    pub z: T,
}

#[derive(Debug, Clone, Copy, PartialEq)]
#[repr(C)]
pub struct Point3<T> {
    pub coords: Vector3<T>,
}

impl<T> Vector3<T> {
    pub const fn new(x: T, y: T, z: T) -> Self {
        Self { x, y, z }
    }
    pub fn iter(&self) -> std::array::IntoIter<&T, 3> {
        [&self.x, &self.y, &self.z].into_iter()
    }
}

impl<T> Point3<T> {
    pub const fn new(x: T, y: T, z: T) -> Self {
        Self { coords: Vector3 { x, y, z } }
    }
}

impl<T> From<Vector3<T>> for Point3<T> {
    fn from(coords: Vector3<T>) -> Self {
        Self { coords }
    }
}

impl<T> Deref for Point3<T> {
    type Target = Vector3<T>;
    fn deref(&self) -> &Vector3<T> {
        &self.coords
    }
}

impl<T> DerefMut for Point3<T> {
    fn deref_mut(&mut self) -> &mut Vector3<T> {
        &mut self.coords
    }
}

impl<T> Index<usize> for Vector3<T> {
    type Output = T;
    fn index(&self, i: usize) -> &T {
        [&self.x, &self.y, &self.z][i]
    }
}

impl<T> IndexMut<usize> for Vector3<T> {
    fn index_mut(&mut self, i: usize) -> &mut T {
        [&mut self.x, &mut self.y, &mut self.z].into_iter().nth(i).expect("a vector has three components")
    }
}

impl Point3<f32> {
    pub fn origin() -> Self {
        Self::new(0.0, 0.0, 0.0)
    }
}

impl Vector3<f32> {
    pub fn norm(&self) -> f32 {
        ((self.x * self.x + self.y * self.y) + self.z * self.z).sqrt()
    }
    pub fn magnitude(&self) -> f32 {
        self.norm()
    }
    pub fn normalize(&self) -> Self {
        *self / self.norm()
    }
    pub fn cross(&self, b: &Self) -> Self {
        Self::new(self.y * b.z - self.z * b.y, self.z * b.x - self.x * b.z, self.x * b.y - self.y * b.x)
    }
}

impl Add for Vector3<f32> {
    type Output = Self;
    fn add(self, b: Self) -> Self {
        Self::new(self.x + b.x, self.y + b.y, self.z + b.z)
    }
}

impl Sub for Vector3<f32> {
    type Output = Self;
    fn sub(self, b: Self) -> Self {
        Self::new(self.x - b.x, self.y - b.y, self.z - b.z)
    }
}

impl Mul<f32> for Vector3<f32> {
    type Output = Self;
    fn mul(self, s: f32) -> Self {
        Self::new(self.x * s, self.y * s, self.z * s)
    }
}

impl Div<f32> for Vector3<f32> {
    type Output = Self;
    fn div(self, s: f32) -> Self {
        Self::new(self.x / s, self.y / s, self.z / s)
    }
}

impl Neg for Vector3<f32> {
    type Output = Self;
    fn neg(self) -> Self {
        Self::new(-self.x, -self.y, -self.z)
    }
}

impl Sub for Point3<f32> {
    type Output = Vector3<f32>;
    fn sub(self, b: Self) -> Vector3<f32> {
        self.coords - b.coords
    }
}

impl Sub<&Point3<f32>> for Point3<f32> {
    type Output = Vector3<f32>;
    fn sub(self, b: &Self) -> Vector3<f32> {
        self.coords - b.coords
    }
}
