//! The exported functions of the crate `solver_export`, with safe names: what their contracts ask of a caller is asserted here.

mod exported {
    extern "C" {
        pub fn hoardmagpie_blur_axis(v: *const f32, v_len: usize, out: *mut f32, out_len: usize, nodes: usize, axis: usize, kernel: *const f32, kernel_len: usize, radius: usize);
        pub fn hoardmagpie_apply(x: *const f32, x_len: usize, y: *mut f32, y_len: usize, nodes: usize);
        pub fn hoardmagpie_conjugate_gradient(
            b: *const f32,
            b_len: usize,
            x: *mut f32,
            x_len: usize,
            r: *mut f32,
            r_len: usize,
            p: *mut f32,
            p_len: usize,
            ap: *mut f32,
            ap_len: usize,
            nodes: usize,
            tolerance: f64,
            cap: usize,
        );
        pub fn hoardmagpie_solve(
            points: *const f32,
            numbers: usize,
            i: f64,
            j: f64,
            k: f64,
            size: f64,
            spacing: f64,
            smoothing: f32,
            cap: usize,
            tolerance: f64,
            depth: u32,
            x: *mut f32,
            x_len: usize,
            before: *mut f32,
            before_len: usize,
            b: *mut f32,
            b_len: usize,
            s: *mut f32,
            s_len: usize,
            r: *mut f32,
            r_len: usize,
            p: *mut f32,
            p_len: usize,
            ap: *mut f32,
            ap_len: usize,
        );
    }
}

fn assert_sizes(nodes: usize, lengths: &[usize]) {
    assert!((2..=256).contains(&nodes) && lengths.iter().all(|&l| l == nodes * nodes * nodes));
}

pub fn blur_axis(v: &[f32], out: &mut [f32], nodes: usize, axis: usize, kernel: &[f32]) {
    assert_sizes(nodes, &[v.len(), out.len()]);
    assert!(kernel.len() % 2 == 1 && kernel.len() <= 37);
    // Two slices are read and the third is written, each inside its length, and they are apart.
    unsafe { exported::hoardmagpie_blur_axis(v.as_ptr(), v.len(), out.as_mut_ptr(), out.len(), nodes, axis, kernel.as_ptr(), kernel.len(), kernel.len() / 2) }
}

pub fn apply(x: &[f32], y: &mut [f32], nodes: usize) {
    assert_sizes(nodes, &[x.len(), y.len()]);
    // One slice is read and the other written, each inside its length, and they are apart.
    unsafe { exported::hoardmagpie_apply(x.as_ptr(), x.len(), y.as_mut_ptr(), y.len(), nodes) }
}

/// `scratch` is r, p and ap.
pub fn conjugate_gradient(b: &[f32], x: &mut [f32], scratch: [&mut [f32]; 3], nodes: usize, tolerance: f64, cap: usize) {
    let [r, p, ap] = scratch;
    assert_sizes(nodes, &[b.len(), x.len(), r.len(), p.len(), ap.len()]);
    // One slice is read and four are written, each inside its length, and they are apart.
    unsafe {
        exported::hoardmagpie_conjugate_gradient(
            b.as_ptr(),
            b.len(),
            x.as_mut_ptr(),
            x.len(),
            r.as_mut_ptr(),
            r.len(),
            p.as_mut_ptr(),
            p.len(),
            ap.as_mut_ptr(),
            ap.len(),
            nodes,
            tolerance,
            cap,
        )
    }
}

/// What is solved on every level.
#[derive(Clone, Copy)]
pub struct Problem {
    pub origin: [f64; 3],
    pub size: f64,
    pub spacing: f64,
    pub smoothing: f32,
    pub cap: usize,
    pub tolerance: f64,
}

/// The first slice takes the solution; the others are scratch.
pub fn solve(points: &[f32], problem: &Problem, depth: u32, slices: [&mut [f32]; 7]) {
    assert!((1..=8).contains(&depth));
    let [x, before, b, s, r, p, ap] = slices;
    assert_sizes(1 << depth, &[x.len(), before.len(), b.len(), s.len(), r.len(), p.len(), ap.len()]);
    let [i, j, k] = problem.origin;
    // The points are read and seven slices are written, each inside its length, and they are apart.
    unsafe {
        exported::hoardmagpie_solve(
            points.as_ptr(),
            points.len(),
            i,
            j,
            k,
            problem.size,
            problem.spacing,
            problem.smoothing,
            problem.cap,
            problem.tolerance,
            depth,
            x.as_mut_ptr(),
            x.len(),
            before.as_mut_ptr(),
            before.len(),
            b.as_mut_ptr(),
            b.len(),
            s.as_mut_ptr(),
            s.len(),
            r.as_mut_ptr(),
            r.len(),
            p.as_mut_ptr(),
            p.len(),
            ap.as_mut_ptr(),
            ap.len(),
        )
    }
}
