//! The library's own calls, over slices that the caller lends. Most programs want [`crate::reconstruct`], which owns them.
//!
//! The slices may hold anything and have any length: what is too short is refused, and nothing is touched outside them. After
//! a call, whatever it answers, all scratch is zero and so is every result element that the answer does not count.
use crate::exported;
use crate::settings::Settings;

/// Memory for the work. With N = 8^depth: seven slices of N, one of 3N, and one element for each given point.
pub struct Scratch<'a> {
    /// N each.
    pub grids: [&'a mut [f32]; 7],
    /// 3N.
    pub edges: &'a mut [u32],
    /// One for each given point.
    pub distances: &'a mut [f32],
}

/// The answer as it crosses the boundary. A refusal has zeros in both lists.
#[derive(Debug, Clone, Copy, PartialEq)]
pub struct Answer {
    /// 0 accepts; the refusals are 1 to 10.
    pub number: u32,
    /// Usable points, vertices, faces; then zeros.
    pub counts: [u64; 8],
    /// Level, low corner, high corner; then a zero.
    pub values: [f32; 8],
}

impl Answer {
    /// Not zeros, so that an entry which the library forgot would be seen.
    const UNWRITTEN: Answer = Answer { number: u32::MAX, counts: [u64::MAX; 8], values: [f32::MAX; 8] };

    /// Points that were used.
    pub fn usable(&self) -> usize {
        self.counts[0] as usize
    }
    /// Vertices of the mesh.
    pub fn vertices(&self) -> usize {
        self.counts[1] as usize
    }
    /// Faces of the mesh.
    pub fn faces(&self) -> usize {
        self.counts[2] as usize
    }
    /// The value of the field on the surface.
    pub fn level(&self) -> f32 {
        self.values[0]
    }
    /// The low corner of the vertices' box.
    pub fn low(&self) -> [f32; 3] {
        [self.values[1], self.values[2], self.values[3]]
    }
    /// The high corner of the vertices' box.
    pub fn high(&self) -> [f32; 3] {
        [self.values[4], self.values[5], self.values[6]]
    }
}

/// Calls an exported function: the arguments before the scratch, then the scratch, then the answer.
///
/// This is safe because the library demands nothing of its caller but slices that are there and do not overlap. Each pointer
/// comes from a borrowed slice of that length, and exclusive borrows do not overlap.
macro_rules! call {
    ($function:ident, $scratch:ident, $($first:expr),* $(,)?) => {{
        let mut answer = Answer::UNWRITTEN;
        let Scratch { grids: [s0, s1, s2, s3, s4, s5, s6], edges, distances } = $scratch;
        answer.number = unsafe {
            exported::$function(
                $($first,)*
                s0.as_mut_ptr(), s0.len(),
                s1.as_mut_ptr(), s1.len(),
                s2.as_mut_ptr(), s2.len(),
                s3.as_mut_ptr(), s3.len(),
                s4.as_mut_ptr(), s4.len(),
                s5.as_mut_ptr(), s5.len(),
                s6.as_mut_ptr(), s6.len(),
                edges.as_mut_ptr(), edges.len(),
                distances.as_mut_ptr(), distances.len(),
                answer.counts.as_mut_ptr(),
                answer.values.as_mut_ptr(),
            )
        };
        answer
    }};
}

/// Closes a scan: points as six numbers each in, vertices and faces as three numbers each out.
pub fn reconstruct(
    points: &[f32],
    settings: &Settings,
    vertices: &mut [f32],
    faces: &mut [u32],
    scratch: Scratch,
) -> Answer {
    let (flag, distance) = settings.trimming_numbers();
    call!(
        poisson_reconstruct,
        scratch,
        points.as_ptr(),
        points.len(),
        settings.depth,
        settings.smoothing,
        settings.iso_offset,
        flag,
        distance,
        settings.iterations,
        settings.tolerance,
        vertices.as_mut_ptr(),
        vertices.len(),
        faces.as_mut_ptr(),
        faces.len(),
    )
}

/// [`reconstruct`] with the library's default settings.
pub fn reconstruct_default(points: &[f32], vertices: &mut [f32], faces: &mut [u32], scratch: Scratch) -> Answer {
    call!(
        poisson_reconstruct_default,
        scratch,
        points.as_ptr(),
        points.len(),
        vertices.as_mut_ptr(),
        vertices.len(),
        faces.as_mut_ptr(),
        faces.len(),
    )
}

/// The N node values and the level, without the mesh. `field` needs N elements; one that is shorter is refused as scratch is.
pub fn field(points: &[f32], settings: &Settings, field: &mut [f32], scratch: Scratch) -> Answer {
    let (flag, distance) = settings.trimming_numbers();
    call!(
        poisson_field,
        scratch,
        points.as_ptr(),
        points.len(),
        settings.depth,
        settings.smoothing,
        settings.iso_offset,
        flag,
        distance,
        settings.iterations,
        settings.tolerance,
        field.as_mut_ptr(),
        field.len(),
    )
}
