//! Scanned shapes of about unit size, with normals that point outwards.
use crate::random::Random;
use std::f64::consts::TAU;

/// Position and normal.
pub type Sample = [f64; 6];

fn direction(r: &mut Random) -> [f64; 3] {
    loop {
        let v = [0; 3].map(|_| r.between(-1.0, 1.0));
        let length = (v[0] * v[0] + v[1] * v[1] + v[2] * v[2]).sqrt();
        if (0.1..1.0).contains(&length) {
            return v.map(|c| c / length);
        }
    }
}

fn repeat(r: &mut Random, count: usize, mut sample: impl FnMut(&mut Random) -> Sample) -> Vec<Sample> {
    (0..count).map(|_| sample(r)).collect()
}

pub fn ball(r: &mut Random, count: usize, roughness: f64) -> Vec<Sample> {
    repeat(r, count, |r| {
        let [x, y, z] = direction(r);
        let s = 1.0 + roughness * r.between(-1.0, 1.0);
        [x * s, y * s, z * s, x, y, z]
    })
}

/// The drawing in the training room: a ring of radius 1 with a third of it missing.
pub fn ring(r: &mut Random, count: usize, tube: f64) -> Vec<Sample> {
    repeat(r, count, |r| {
        let (a, b) = (r.between(0.0, TAU * 2.0 / 3.0), r.between(0.0, TAU));
        let q = 1.0 + tube * b.cos();
        [a.cos() * q, a.sin() * q, tube * b.sin(), a.cos() * b.cos(), a.sin() * b.cos(), b.sin()]
    })
}

pub fn sheet(r: &mut Random, count: usize, tilt: f64) -> Vec<Sample> {
    let length = (1.0 + tilt * tilt).sqrt();
    repeat(r, count, |r| {
        let (x, y) = (r.between(-1.0, 1.0), r.between(-1.0, 1.0));
        [x, y, tilt * x, -tilt / length, 0.0, 1.0 / length]
    })
}

pub fn cloud(r: &mut Random, count: usize) -> Vec<Sample> {
    repeat(r, count, |r| {
        let [nx, ny, nz] = direction(r);
        [r.between(-1.0, 1.0), r.between(-1.0, 1.0), r.between(-1.0, 1.0), nx, ny, nz]
    })
}

pub fn block(r: &mut Random, count: usize) -> Vec<Sample> {
    repeat(r, count, |r| {
        let (axis, s) = (r.below(3), r.pick(&[1.0, -1.0]));
        let mut p = [0.0; 6];
        p[axis] = s;
        p[(axis + 1) % 3] = r.between(-1.0, 1.0);
        p[(axis + 2) % 3] = r.between(-1.0, 1.0);
        p[3 + axis] = s;
        p
    })
}

pub fn two_balls(r: &mut Random, count: usize) -> Vec<Sample> {
    let mut all = ball(r, count, 0.0);
    for (i, p) in all.iter_mut().enumerate() {
        for c in &mut p[..3] {
            *c *= 0.5;
        }
        p[0] += if i % 2 == 0 { -0.8 } else { 0.8 };
    }
    all
}

pub fn pipe(r: &mut Random, count: usize) -> Vec<Sample> {
    repeat(r, count, |r| {
        let a = r.between(0.0, TAU);
        [0.4 * a.cos(), r.between(-1.0, 1.0), 0.4 * a.sin(), a.cos(), 0.0, a.sin()]
    })
}

/// Points of a small lattice: ties in every distance, places that coincide with nodes.
pub fn lattice(r: &mut Random, count: usize) -> Vec<Sample> {
    (0..count)
        .map(|i| {
            let c = [i % 4, i / 4 % 4, i / 16].map(|c| c as f64);
            let axis = r.below(3);
            let mut p = [c[0], c[1], c[2], 0.0, 0.0, 0.0];
            p[3 + axis] = if c[axis] < 1.5 { -1.0 } else { 1.0 };
            p
        })
        .collect()
}

pub fn any(r: &mut Random, count: usize) -> Vec<Sample> {
    match r.below(9) {
        0 => ball(r, count, 0.0),
        1 => ball(r, count, 0.1),
        2 => ring(r, count, 0.35),
        3 => sheet(r, count, 0.3),
        4 => cloud(r, count),
        5 => block(r, count),
        6 => two_balls(r, count),
        7 => pipe(r, count),
        _ => lattice(r, count),
    }
}

/// The samples as a call takes them, scaled and moved.
pub fn placed(samples: &[Sample], scale: f64, at: [f64; 3]) -> Vec<f32> {
    let place = |p: &Sample| -> [f64; 6] {
        let [x, y, z, nx, ny, nz] = *p;
        [x * scale + at[0], y * scale + at[1], z * scale + at[2], nx, ny, nz]
    };
    samples.iter().flat_map(place).map(|c| c as f32).collect()
}
