//! mesh.rs and point.rs are as published. The rest of the crate is not in the text: `Error`, `Result`, `PointCloud` and the
//! search trait are stand-ins of the shape that their callers show.
#[rustfmt::skip]
pub mod mesh;
#[rustfmt::skip]
pub mod point;

pub use mesh::*;
pub use point::*;

#[derive(Debug, Clone, PartialEq)]
pub enum Error {
    InvalidData(String),
    Algorithm(String),
}

pub type Result<T> = std::result::Result<T, Error>;

#[derive(Debug, Clone)]
pub struct PointCloud<T> {
    pub points: Vec<T>,
}

impl<T> PointCloud<T> {
    pub fn is_empty(&self) -> bool {
        self.points.is_empty()
    }
}

pub trait NearestNeighborSearch {
    fn find_k_nearest(&self, query: &Point3f, k: usize) -> Vec<(usize, f32)>;
    fn find_radius_neighbors(&self, query: &Point3f, radius: f32) -> Vec<(usize, f32)>;
}
