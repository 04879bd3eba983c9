//! The functions of include/hoardmagpie.h. Nothing checks these declarations against the Rattle source: the comparison does,
//! by calling every one of them.

/// The scratch slices, in the order in which all three calls take them.
macro_rules! calls {
    ($($name:ident ( $($first:ident : $type:ty),* );)*) => {
        extern "C" {
            $(pub fn $name(
                $($first: $type,)*
                s0: *mut f32, s0_len: usize,
                s1: *mut f32, s1_len: usize,
                s2: *mut f32, s2_len: usize,
                s3: *mut f32, s3_len: usize,
                s4: *mut f32, s4_len: usize,
                s5: *mut f32, s5_len: usize,
                s6: *mut f32, s6_len: usize,
                edges: *mut u32, edges_len: usize,
                distances: *mut f32, distances_len: usize,
                counts: *mut u64,
                values: *mut f32,
            ) -> u32;)*
        }
    };
}

calls! {
    poisson_reconstruct(
        points: *const f32, points_len: usize,
        depth: u32, smoothing: f32, iso_offset: f32, trimming: u32, distance: f32, iterations: usize, tolerance: f64,
        vertices: *mut f32, vertices_len: usize,
        faces: *mut u32, faces_len: usize
    );
    poisson_reconstruct_default(
        points: *const f32, points_len: usize,
        vertices: *mut f32, vertices_len: usize,
        faces: *mut u32, faces_len: usize
    );
    poisson_field(
        points: *const f32, points_len: usize,
        depth: u32, smoothing: f32, iso_offset: f32, trimming: u32, distance: f32, iterations: usize, tolerance: f64,
        field: *mut f32, field_len: usize
    );
}

extern "C" {
    pub fn poisson_defaults(words: *mut u64, values: *mut f32, tolerance: *mut f64);
}
