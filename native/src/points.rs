//! The exported functions of the crate `points_export`, with safe names: what their contracts ask of a caller is asserted here.

mod exported {
    extern "C" {
        pub fn hoardmagpie_usable_count(points: *const f32, numbers: usize) -> usize;
        pub fn hoardmagpie_extent(points: *const f32, numbers: usize) -> f64;
        pub fn hoardmagpie_spacing(points: *const f32, numbers: usize, list: *mut f32, length: usize, extent: f64) -> f64;
        pub fn hoardmagpie_sample(values: *const f32, length: usize, nodes: usize, a: f64, b: f64, c: f64, step: f64, x: f64, y: f64, z: f64) -> f64;
    }
}

pub fn usable_count(points: &[f32]) -> usize {
    // The slice is read and nothing else is touched.
    unsafe { exported::hoardmagpie_usable_count(points.as_ptr(), points.len()) }
}

pub fn extent(points: &[f32]) -> f64 {
    // The slice is read and nothing else is touched.
    unsafe { exported::hoardmagpie_extent(points.as_ptr(), points.len()) }
}

/// The list has room for one number for each point.
pub fn spacing(points: &[f32], list: &mut [f32], extent: f64) -> f64 {
    assert!(points.len() / 6 <= list.len());
    // One slice is read, the other written inside its length, and they are apart.
    unsafe { exported::hoardmagpie_spacing(points.as_ptr(), points.len(), list.as_mut_ptr(), list.len(), extent) }
}

pub fn sample(values: &[f32], nodes: usize, origin: [f64; 3], step: f64, p: [f64; 3]) -> f64 {
    assert!((2..=256).contains(&nodes) && values.len() == nodes * nodes * nodes);
    let ([a, b, c], [x, y, z]) = (origin, p);
    // The slice is read inside its length.
    unsafe { exported::hoardmagpie_sample(values.as_ptr(), values.len(), nodes, a, b, c, step, x, y, z) }
}
