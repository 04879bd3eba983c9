//! What the exported functions of `points_export` are compared with: the same answers as one would write them in Rust, over the same flat slice of six numbers
//! a point. Squares are compared, and roots taken at the end.

/// Document 01, "Points": finite components, a finite f32 length, and that not under 1e-12.
pub fn usable(p: &[f32]) -> bool {
    let length = ((p[3] * p[3] + p[4] * p[4]) + p[5] * p[5]).sqrt();
    p[0].is_finite() && p[1].is_finite() && p[2].is_finite() && length.is_finite() && length >= 1e-12
}

pub fn usable_count(points: &[f32]) -> usize {
    points.chunks_exact(6).filter(|p| usable(p)).count()
}

pub fn extent(points: &[f32]) -> f64 {
    let mut low = [f64::INFINITY; 3];
    let mut high = [f64::NEG_INFINITY; 3];
    for p in points.chunks_exact(6).filter(|p| usable(p)) {
        for axis in 0..3 {
            low[axis] = low[axis].min(p[axis] as f64);
            high[axis] = high[axis].max(p[axis] as f64);
        }
    }
    (0..3).map(|axis| high[axis] - low[axis]).fold(0.0, f64::max)
}

/// The first positive of the two smallest distances from q among at least two usable points.
fn gap(points: &[f32], q: &[f32]) -> Option<f32> {
    let (mut first, mut second) = (f32::INFINITY, f32::INFINITY);
    for p in points.chunks_exact(6) {
        let (x, y, z) = (p[0] - q[0], p[1] - q[1], p[2] - q[2]);
        let d = (x * x + y * y) + z * z;
        if d < second && usable(p) {
            (first, second) = if d < first { (d, first) } else { (first, d) };
        }
    }
    [first.sqrt(), second.sqrt()].into_iter().find(|&d| d > 0.0)
}

/// Document 01, "Spacing".
pub fn spacing(points: &[f32], extent: f64) -> f64 {
    let count = usable_count(points);
    let step = (count / 1000).max(1);
    let queries = points.chunks_exact(6).filter(|p| usable(p)).step_by(step);
    let mut gaps: Vec<f32> = if count < 2 { vec![] } else { queries.filter_map(|q| gap(points, q)).collect() };
    gaps.sort_by(f32::total_cmp);
    let middle = gaps.get(gaps.len() / 2).copied().unwrap_or(0.0);
    (middle as f64).max(extent * 1e-6)
}

/// The Rust's `trilinear` and `sample` of poisson.rs, the sum from -0.0.
pub fn sample(values: &[f32], n: usize, origin: [f64; 3], h: f64, p: [f64; 3]) -> f64 {
    let mut base = [0usize; 3];
    let mut frac = [0f64; 3];
    for axis in 0..3 {
        let u = ((p[axis] - origin[axis]) / h).clamp(0.0, (n - 1) as f64);
        let cell = (u.floor() as usize).min(n - 2);
        base[axis] = cell;
        frac[axis] = u - cell as f64;
    }
    let mut sum = -0.0;
    for c in 0..8 {
        let (di, dj, dk) = (c >> 2 & 1, c >> 1 & 1, c & 1);
        let w = (if di == 1 { frac[0] } else { 1.0 - frac[0] })
            * (if dj == 1 { frac[1] } else { 1.0 - frac[1] })
            * (if dk == 1 { frac[2] } else { 1.0 - frac[2] });
        sum += w * values[((base[0] + di) * n + base[1] + dj) * n + base[2] + dk] as f64;
    }
    sum
}
