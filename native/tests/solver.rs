//! The exported functions of `blur`, `laplacian`, `solver` and `levels`, by bits, against the Rust source's own text (the oracle's).
use native::{brute, solver, stored32, Patterns};
use oracle::{loops, PoissonConfig};

/// Numbers between -1 and 1; for odd kinds some are zeros of either sign, tiny or large, and for every fifth kind some are infinite or NaN.
fn values(kind: u64, count: usize) -> Vec<f32> {
    let mut patterns = Patterns::new(kind * 31 + 7);
    let number = |b: u64| match b % 64 {
        0 if kind % 2 == 1 => [0.0, -0.0, 1e-40, -1e-45, 1e30, -3e38][(b >> 8) as usize % 6],
        1 if kind % 5 == 4 => [f32::INFINITY, f32::NEG_INFINITY, f32::NAN][(b >> 8) as usize % 3],
        _ => (b >> 40) as f32 / (1 << 23) as f32 - 1.0,
    };
    (0..count).map(|_| number(patterns.bits())).collect()
}

fn bits(values: &[f32]) -> Vec<u32> {
    values.iter().map(|&v| stored32(v)).collect()
}

#[test]
fn laplacians() {
    for kind in 0..30 {
        let n = [2, 3, 8, 16, 32][kind as usize % 5];
        let x = values(kind, n * n * n);
        let (mut ours, mut theirs) = (vec![1.0; x.len()], vec![2.0; x.len()]);
        solver::apply(&x, &mut ours, n);
        loops::apply(&x, &mut theirs, n);
        assert_eq!(bits(&ours), bits(&theirs), "A x of field {kind}, {n} nodes per side");
    }
}

#[test]
fn blurs() {
    for kind in 0..30 {
        let (n, axis) = ([8, 16, 32][kind as usize % 3], kind as usize / 3 % 3);
        let sigma = [0.5, 1.3, 2.0, 6.0][kind as usize % 4];
        let radius = (3.0 * sigma as f64).ceil() as i32;
        let kernel: Vec<f32> = (-radius..=radius).map(|d| oracle::exp_neg((d * d) as f64 / (2.0 * sigma * sigma))).collect();
        let v = values(kind, n * n * n);
        let mut ours = vec![1.0; v.len()];
        solver::blur_axis(&v, &mut ours, n, axis, &kernel);
        assert_eq!(bits(&ours), bits(&loops::blur_axis(&v, n, axis, sigma)), "blur of field {kind}, {n} nodes per side, axis {axis}");
    }
}

#[test]
fn gradients() {
    for kind in 0..60 {
        let n = [2, 8, 16][kind as usize % 3];
        let cap = [0, 1, 2, 9, 40][kind as usize % 5];
        let tolerance = [0.0, 1e-4, 0.3, f64::NAN][kind as usize % 4];
        let b = if kind % 11 == 10 { vec![0.0; n * n * n] } else { values(kind, n * n * n) };
        let x = values(kind + 1, n * n * n);
        let (mut ours, mut theirs) = (x.clone(), x);
        let [mut r, mut p, mut ap] = [(); 3].map(|_| vec![f32::NAN; n * n * n]);
        solver::conjugate_gradient(&b, &mut ours, [&mut r, &mut p, &mut ap], n, tolerance, cap);
        let config = PoissonConfig { max_iterations: cap, tolerance, ..PoissonConfig::default() };
        loops::conjugate_gradient(&b, &mut theirs, n, &config);
        assert_eq!(bits(&ours), bits(&theirs), "solution {kind}, {n} nodes per side, at most {cap} steps");
        assert!([r, p, ap].iter().flatten().all(|v| v.to_bits() == 0), "the scratch is cleared");
    }
}

#[test]
fn solutions() {
    for depth in 1..=6 {
        let points = values(2 * depth as u64, 6 * 200);
        let extent = brute::extent(&points);
        let (origin, size, spacing) = ([-extent * 0.6; 3], extent * 1.2, brute::spacing(&points, extent));
        let config = PoissonConfig { depth, max_iterations: 60, ..PoissonConfig::default() };
        let problem = solver::Problem { origin, size, spacing, smoothing: config.smoothing, cap: config.max_iterations, tolerance: config.tolerance };
        let mut slices = [(); 7].map(|_| vec![f32::NAN; 1 << (3 * depth)]);
        solver::solve(&points, &problem, depth, slices.each_mut().map(|s| &mut s[..]));
        let theirs = loops::Problem::new(&points, origin, size, spacing, config).solve(depth);
        assert_eq!(bits(&slices[0]), bits(&theirs), "the solution at depth {depth}");
        assert!(slices[1..].iter().flatten().all(|v| v.to_bits() == 0), "the scratch is cleared");
    }
}
