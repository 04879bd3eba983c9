//! The volume that a mesh encloses. It is computed here, in f64, and not by the proved library: nothing of it is proved.
use crate::{open_edges, Mesh};
use std::fmt;

/// Why a mesh has no volume.
#[derive(Debug, Clone, Copy, PartialEq, Eq)]
pub enum NoVolume {
    /// Some edge is open, so nothing is enclosed.
    Open,
    /// Some coordinate of a vertex is a NaN or an infinity.
    NotFinite,
}

impl fmt::Display for NoVolume {
    fn fmt(&self, f: &mut fmt::Formatter) -> fmt::Result {
        f.write_str(match self {
            NoVolume::Open => "the mesh is not closed",
            NoVolume::NotFinite => "a vertex of the mesh is not finite",
        })
    }
}

impl std::error::Error for NoVolume {}

/// The volume that a closed mesh encloses, in cubes of the scan's unit of length.
///
/// It is above zero where the faces look outward, as they do when the scan's normals do, and below zero where they look inward.
///
/// # Errors
/// Without a volume are a mesh with open edges, counted over vertex numbers, and one with a vertex that is not finite.
pub fn volume(mesh: &Mesh) -> Result<f64, NoVolume> {
    if open_edges(&mesh.faces) != 0 {
        return Err(NoVolume::Open);
    }
    let sum = tetrahedra(mesh);
    sum.is_finite().then_some(sum).ok_or(NoVolume::NotFinite)
}

/// The signed tetrahedra between the faces and the centre of the box.
///
/// About any other point a closed mesh has the same sum on paper. About one far from the part it would be a small difference
/// of large numbers, and digits would be lost.
fn tetrahedra(mesh: &Mesh) -> f64 {
    let centre: [f64; 3] = std::array::from_fn(|i| (f64::from(mesh.low[i]) + f64::from(mesh.high[i])) / 2.0);
    let corner = |v: u32| -> [f64; 3] {
        let vertex = mesh.vertices[v as usize];
        std::array::from_fn(|i| f64::from(vertex[i]) - centre[i])
    };
    let six_times: f64 = mesh.faces.iter().map(|face| determinant(face.map(corner))).sum();
    six_times / 6.0
}

/// a · (b × c): six times the volume between three corners and the origin.
fn determinant([a, b, c]: [[f64; 3]; 3]) -> f64 {
    a[0] * (b[1] * c[2] - b[2] * c[1]) + a[1] * (b[2] * c[0] - b[0] * c[2]) + a[2] * (b[0] * c[1] - b[1] * c[0])
}
