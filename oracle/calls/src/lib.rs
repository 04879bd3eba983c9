//! Generated calls of every kind: sound scans, damaged copies, extreme settings, and slices one element too short or too long.
pub mod random;
pub mod shapes;

use oracle::{answer, Outcome, PoissonConfig, Room};
use random::Random;

/// A call and the lengths of all slices that are lent with it.
#[derive(Debug, Clone)]
pub struct Call {
    pub points: Vec<f32>,
    pub config: PoissonConfig,
    pub room: Room,
    /// The length of the field's slice, in the call for the field.
    pub field: usize,
}

impl Call {
    /// Exactly the stated scratch, and room for any mesh of the smaller depths.
    pub fn new(points: Vec<f32>, config: PoissonConfig) -> Call {
        let given = points.len() / 6;
        let mut room = Room::ample(config.depth, given);
        room.vertices = room.vertices.min(3 << 20);
        room.faces = room.faces.min(3 << 21);
        Call { points, field: room.grids[0], config, room }
    }

    pub fn oracle(&self) -> Outcome {
        answer(&self.points, &self.config, &self.room)
    }

    fn with(&self, change: impl FnOnce(&mut Call)) -> Call {
        let mut call = self.clone();
        change(&mut call);
        call
    }
}

/// A call and others that are made from it. Above depth 5, where a call takes long, no more than three.
pub fn family(r: &mut Random, depth: u32) -> Vec<Call> {
    let base = if r.once_in(2) { sound(r, depth) } else { extreme(r, depth) };
    let mut calls = vec![base.clone()];
    calls.push(damaged(r, &base));
    calls.push(damaged(r, &base));
    match r.below(4) {
        0 => calls.extend(sizes(r, &base)),
        1 => calls.extend(aimed(r, &base)),
        2 => calls.extend(faults(r, &base)),
        _ => calls.extend(trims(r, &base)),
    }
    if depth > 5 {
        let other = 2 + r.below(calls.len() - 2);
        calls.swap(2, other);
        calls.truncate(3);
    }
    calls
}

/// The most steps: few at the larger depths, where a step takes long, and now and then as many as a scan needs.
fn steps(r: &mut Random, depth: u32) -> usize {
    match depth {
        0..=3 => r.pick(&[0, 1, 2, 5, 40, 1000, 1000]),
        4 => r.pick(&[0, 1, 3, 20, 40, 200]),
        5 => r.pick(&[1, 4, 15, 40, 100]),
        6 if r.once_in(10) => 1000,
        6 => r.pick(&[1, 4, 12]),
        7 if r.once_in(40) => 400,
        _ => r.pick(&[1, 2, 3]),
    }
}

/// A scan as a scanner gives it, and settings that a person would choose.
pub fn sound(r: &mut Random, depth: u32) -> Call {
    let count = if r.once_in(40) { 1990 + r.below(20) } else { 10 + r.below(150) };
    let scale = 10f64.powf(r.between(-3.0, 4.0));
    let at = [0; 3].map(|_| r.between(-5.0, 5.0) * scale);
    let points = shapes::placed(&shapes::any(r, count), scale, at);
    let config = PoissonConfig {
        depth,
        smoothing: r.between(0.2, 6.0) as f32,
        iso_offset: 0.0,
        trim_distance: r.once_in(4).then_some((scale * r.between(0.01, 0.5)) as f32),
        max_iterations: steps(r, depth),
        tolerance: 10f64.powf(r.between(-7.0, -1.0)),
    };
    Call::new(points, config)
}

/// Scales at which squares vanish or overflow, and settings that no person would choose.
pub fn extreme(r: &mut Random, depth: u32) -> Call {
    let (low, high) = r.pick(&[(-46.0, 38.5), (-24.0, -20.0), (18.0, 22.0), (-45.5, -43.0), (19.0, 20.5), (-3.0, 3.0)]);
    let scale = 10f64.powf(r.between(low, high));
    let count = 9 + r.below(30);
    let points = shapes::placed(&shapes::any(r, count), scale, [0.0; 3]);
    let s = scale as f32;
    let (nan, inf) = (f32::NAN, f32::INFINITY);
    let offsets = [s * 0.01, -s * 0.01, s, -s, nan, inf, -inf, 1e38, -1e38, 1e-45, -0.0];
    let distances = [s * 0.2, -s * 0.2, s, 0.0, -0.0, nan, inf, -inf, 1e20, 1e-30];
    let config = PoissonConfig {
        depth,
        smoothing: r.pick(&[1.0, 1.0, 1.0, 1.0, 0.1, 3.0, 50.0, inf, 1e-40, 1e38]),
        iso_offset: if r.once_in(2) { 0.0 } else { r.pick(&offsets) },
        trim_distance: r.once_in(3).then_some(r.pick(&distances)),
        max_iterations: steps(r, depth),
        tolerance: r.pick(&[1e-4, 1e-4, 0.0, -1.0, f64::NAN, f64::INFINITY, 1e-9, 0.5]),
    };
    Call::new(points, config)
}

/// A copy with some numbers or bits changed, points doubled or left out, or settings changed.
pub fn damaged(r: &mut Random, base: &Call) -> Call {
    let mut points = base.points.clone();
    let mut config = base.config.clone();
    for _ in 0..1 + r.below(4) {
        match r.below(8) {
            0..6 => damage(r, &mut points),
            6 => config.smoothing = r.pattern(),
            _ => config.iso_offset = r.pattern(),
        }
    }
    if r.once_in(8) {
        points.truncate(r.below(points.len()));
    }
    if r.once_in(2) {
        config.tolerance = f64::from_bits(r.bits());
    }
    Call::new(points, config)
}

/// Changes one number of a scan, or moves, copies or leaves out points.
fn damage(r: &mut Random, points: &mut Vec<f32>) {
    let at = r.below(points.len());
    let (this, other) = (at / 6 * 6, r.below(points.len() / 6) * 6);
    match r.below(6) {
        0 => points[at] = r.pattern(),
        1 => points[at] = f32::from_bits(points[at].to_bits() ^ 1 << r.below(32)),
        2 => points[at] = r.pick(&[0.0, -0.0, f32::NAN, f32::INFINITY, f32::NEG_INFINITY, 1e-45, f32::MAX]),
        3 => points.copy_within(other..other + 6, this),
        4 => points.copy_within(other..other + 3, this),
        _ => points.truncate(this.max(60)),
    }
}

/// Each slice one element short, exact, and one longer.
fn sizes(r: &mut Random, base: &Call) -> Vec<Call> {
    let seen = base.oracle().seen;
    let exact = base.with(|c| {
        c.room.vertices = 3 * seen.untrimmed[0];
        c.room.faces = 3 * seen.untrimmed[1];
    });
    let mut calls = vec![exact.clone()];
    for slice in 0..12 {
        for longer in [false, true] {
            calls.push(exact.with(|c| {
                let length = slice_length(c, slice);
                *length = if longer { *length + 1 } else { length.saturating_sub(1) };
            }));
        }
    }
    // Several at once: the order of refusal decides.
    calls.push(exact.with(|c| {
        for _ in 0..3 {
            let length = slice_length(c, r.below(12));
            *length = r.below(*length + 2);
        }
    }));
    calls
}

fn slice_length(c: &mut Call, slice: usize) -> &mut usize {
    match slice {
        0..=6 => &mut c.room.grids[slice],
        7 => &mut c.room.edges,
        8 => &mut c.room.distances,
        9 => &mut c.room.vertices,
        10 => &mut c.room.faces,
        _ => &mut c.field,
    }
}

/// Levels that equal a node's value or lie at the field's ends, and a tolerance that the residual meets exactly.
pub fn aimed(r: &mut Random, base: &Call) -> Vec<Call> {
    let plain = base.with(|c| c.config.iso_offset = 0.0);
    let seen = plain.oracle().seen;
    if seen.field.is_empty() {
        return vec![plain];
    }
    let low = seen.field.iter().copied().fold(f32::INFINITY, f32::min);
    let high = seen.field.iter().copied().fold(f32::NEG_INFINITY, f32::max);
    let node = seen.field[r.below(seen.field.len())];
    let near = 1.0 - r.between(0.0, 1e-6) as f32;
    let mut calls = Vec::new();
    for end in [low, high, node] {
        let offset = end - seen.level;
        for offset in [offset, offset * near, offset.next_up(), offset.next_down(), -seen.level] {
            calls.push(plain.with(|c| c.config.iso_offset = offset));
        }
    }
    if !seen.looks.is_empty() {
        let (rr, norm) = r.pick(&seen.looks);
        let tolerance = rr.sqrt() / norm;
        for tolerance in [tolerance.next_down(), tolerance, tolerance.next_up()] {
            calls.push(plain.with(|c| c.config.tolerance = tolerance));
        }
    }
    calls
}

/// Trimming at distances whose square is a face's own squared distance, and at its neighbours.
pub fn trims(r: &mut Random, base: &Call) -> Vec<Call> {
    let whole = base.with(|c| c.config.trim_distance = None);
    let mesh = whole.oracle();
    let mut calls = vec![whole.clone()];
    let within = |d: f32| whole.with(|c| c.config.trim_distance = Some(d));
    calls.extend([0.0, -0.0, f32::NAN, f32::INFINITY, 1e30, 1e-30].map(within));
    for _ in 0..3.min(mesh.faces.len()) {
        let face = mesh.faces[r.below(mesh.faces.len())].map(|v| mesh.vertices[v as usize]);
        let d = nearest(&whole.points, &face).sqrt();
        calls.extend([d, -d, d.next_up(), d.next_down()].map(within));
    }
    calls
}

/// The squared distance of a face's centre from the nearest point.
fn nearest(points: &[f32], face: &[[f32; 3]; 3]) -> f32 {
    let centre = [0, 1, 2].map(|a| ((face[0][a] + face[1][a]) + face[2][a]) / 3.0);
    let squared = |p: &[f32]| {
        let d = [p[0] - centre[0], p[1] - centre[1], p[2] - centre[2]];
        (d[0] * d[0] + d[1] * d[1]) + d[2] * d[2]
    };
    points.chunks_exact(6).map(squared).fold(f32::INFINITY, f32::min)
}

/// One or more reasons for a refusal at once.
fn faults(r: &mut Random, base: &Call) -> Vec<Call> {
    let one_spot = |c: &mut Call| {
        if let Some(&first) = c.points.first_chunk::<3>() {
            c.points.chunks_exact_mut(6).for_each(|p| p[..3].copy_from_slice(&first));
        }
    };
    let mut calls = Vec::new();
    for _ in 0..6 {
        calls.push(base.with(|c| {
            let (odd, few) = (r.below(c.points.len()), 6 * r.below(11));
            for _ in 0..1 + r.below(3) {
                match r.below(8) {
                    0 => c.points.truncate(odd),
                    1 => c.points.clear(),
                    2 => c.points.truncate(few),
                    3 => c.config.depth = r.pick(&[0, 1, 2, 9, 10, 31, 32, 64, u32::MAX]),
                    4 => c.config.smoothing = r.pick(&[0.0, -0.0, -1.0, f32::NAN, f32::NEG_INFINITY, -1e-45]),
                    5 => c.room.grids[r.below(7)] = r.below(600),
                    6 => one_spot(c),
                    _ => (c.room.vertices, c.room.faces) = (r.below(900), r.below(1800)),
                }
            }
        }));
    }
    calls
}
