//! The exported functions of the crate `extract_export`, both passes over a cube, with safe names; and the published Rust's function for the same.
use crate::marching_cubes::extract_shared;
use threecrate_core::TriangleMesh;

mod exported {
    extern "C" {
        pub fn hoardmagpie_number_edges(values: *const f32, length: usize, nodes: usize, a: f64, b: f64, c: f64, step: f64, iso: f32, table: *mut u32, entries: usize, counts: *mut usize);
        pub fn hoardmagpie_write_mesh(values: *const f32, length: usize, nodes: usize, a: f64, b: f64, c: f64, step: f64, iso: f32, table: *const u32, entries: usize, vertices: *mut f32, places: usize, faces: *mut u32, numbers: usize);
    }
}

/// A cube of node values, `nodes` per side from the origin on, `step` apart.
pub struct Cube {
    pub values: Vec<f32>,
    pub nodes: usize,
    pub origin: [f64; 3],
    pub step: f64,
}

/// V and F, with each crossed edge's vertex number, plus one, in the table of three entries a node.
pub fn number_edges(cube: &Cube, iso: f32, table: &mut [u32]) -> [usize; 2] {
    let (values, [a, b, c]) = (&cube.values, cube.origin);
    assert!((2..=256).contains(&cube.nodes) && values.len() == cube.nodes.pow(3) && table.len() == 3 * values.len());
    let mut counts = [0; 2];
    // One slice is read, the table and the two counts are written inside their lengths, and they are apart.
    unsafe { exported::hoardmagpie_number_edges(values.as_ptr(), values.len(), cube.nodes, a, b, c, cube.step, iso, table.as_mut_ptr(), table.len(), counts.as_mut_ptr()) };
    counts
}

/// The mesh, into slices of exactly 3V and 3F. The table is the one that `number_edges` filled for this cube and level: that is the caller's to keep.
pub fn write_mesh(cube: &Cube, iso: f32, table: &[u32], vertices: &mut [f32], faces: &mut [u32]) {
    let (values, [a, b, c]) = (&cube.values, cube.origin);
    assert!((2..=256).contains(&cube.nodes) && values.len() == cube.nodes.pow(3) && table.len() == 3 * values.len());
    // Two slices are read, two written inside their lengths, and they are apart.
    unsafe { exported::hoardmagpie_write_mesh(values.as_ptr(), values.len(), cube.nodes, a, b, c, cube.step, iso, table.as_ptr(), table.len(), vertices.as_mut_ptr(), vertices.len(), faces.as_mut_ptr(), faces.len()) };
}

/// The published Rust's mesh of the same cube, on one thread.
pub fn published(cube: &Cube, iso: f32) -> TriangleMesh {
    let n = cube.nodes;
    extract_shared([n; 3], [cube.step; 3], cube.origin, |i, j, k| cube.values[(i * n + j) * n + k], iso)
}

/// Its coordinates and its faces' numbers, flat.
pub fn flat(mesh: &TriangleMesh) -> (Vec<f32>, Vec<u32>) {
    (mesh.vertices.iter().flat_map(|v| [v.x, v.y, v.z]).collect(), mesh.faces.iter().flatten().map(|&v| v as u32).collect())
}
