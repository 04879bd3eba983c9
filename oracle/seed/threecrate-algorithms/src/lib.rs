//! nearest_neighbor.rs is as published. Normal estimation is not in the text and is not compared: its two functions refuse.
#[rustfmt::skip]
pub mod nearest_neighbor;

pub use nearest_neighbor::*;

use threecrate_core::{Error, NormalPoint3f, Point3f, PointCloud, Result};

pub fn estimate_normals(_: &PointCloud<Point3f>, _: usize) -> Result<PointCloud<NormalPoint3f>> {
    Err(Error::Algorithm("not in the text".to_string()))
}

pub fn orient_normals_consistent(_: &mut PointCloud<NormalPoint3f>, _: usize) -> Result<()> {
    Err(Error::Algorithm("not in the text".to_string()))
}
