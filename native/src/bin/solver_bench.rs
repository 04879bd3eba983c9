//! What A x, a pass of the blur, a turn of conjugate gradients and the whole solve cost on this machine, beside the Rust source's own loops on one thread (the oracle's
//! text): the best of several runs, in processor time. Both sides' values are compared by bits. All slices lie side by side in one block.
//! usage: cargo run --release --bin solver_bench        (in native/, after scripts/native-archive solver_export)
use native::clock::best;
use native::{brute, solver, stored32, Patterns};
use oracle::{loops, PoissonConfig};
use std::f64::consts::TAU;
use std::hint::black_box;

const RUNS: usize = 15;

fn row(name: &str, unit: &str, ours: f64, theirs: f64) {
    println!("{name:40} {ours:9.2} {unit}   Rust {theirs:9.2} {unit}   ratio {:.3}", ours / theirs);
}

fn assert_same(ours: &[f32], theirs: &[f32], what: &str) {
    let differ = ours.iter().zip(theirs).filter(|(a, b)| stored32(**a) != stored32(**b)).count();
    assert!(ours.len() == theirs.len() && differ == 0, "{what}: {differ} nodes differ");
}

/// Numbers between -1 and 1, 0 on the boundary.
fn values(n: usize) -> Vec<f32> {
    let mut patterns = Patterns::new(n as u64);
    let end = |i: usize| i == 0 || i == n - 1;
    (0..n * n * n)
        .map(|q| {
            let v = (patterns.bits() >> 40) as f32 / (1 << 23) as f32 - 1.0;
            if end(q / n / n) || end(q / n % n) || end(q % n) {
                0.0
            } else {
                v
            }
        })
        .collect()
}

/// Parts of one block, a node's value each.
fn side_by_side<const COUNT: usize>(block: &mut [f32]) -> [&mut [f32]; COUNT] {
    let len = block.len() / COUNT;
    let parts: Vec<&mut [f32]> = block.chunks_exact_mut(len).collect();
    parts.try_into().expect("the block has so many parts")
}

fn apply(n: usize) {
    let (nodes, calls) = (n * n * n, (1 << 24) / (n * n * n));
    let mut block = vec![0.0; 2 * nodes];
    let [x, y] = side_by_side(&mut block);
    x.copy_from_slice(&values(n));
    let mut theirs = vec![1.0; nodes];
    y.fill(1.0);
    solver::apply(x, y, n);
    loops::apply(x, &mut theirs, n);
    assert_same(y, &theirs, "apply");
    let each = |run: &mut dyn FnMut()| best(RUNS, || (0..calls).for_each(|_| run())) / (calls * nodes) as f64;
    let ours = each(&mut || solver::apply(black_box(x), y, n));
    let rust = each(&mut || loops::apply(black_box(x), &mut theirs, n));
    row(&format!("apply, {n} nodes per side"), "ns", ours, rust);
}

/// A pass, the mean over the three axes.
fn blur(n: usize, sigma: f64) {
    let nodes = n * n * n;
    let radius = (3.0 * sigma).ceil() as i32;
    let kernel: Vec<f32> = (-radius..=radius).map(|d| oracle::exp_neg((d * d) as f64 / (2.0 * sigma * sigma))).collect();
    let mut block = vec![0.0; 2 * nodes];
    let [v, out] = side_by_side(&mut block);
    v.copy_from_slice(&values(n));
    let (mut ours, mut rust) = (0.0, 0.0);
    for axis in 0..3 {
        solver::blur_axis(v, out, n, axis, &kernel);
        assert_same(out, &loops::blur_axis(v, n, axis, sigma), "blur");
        ours += best(RUNS, || solver::blur_axis(black_box(v), out, n, axis, &kernel));
        rust += best(RUNS, || {
            black_box(loops::blur_axis(black_box(v), n, axis, sigma));
        });
    }
    let all = (3 * nodes) as f64;
    row(&format!("blur, {n} nodes per side, radius {radius}"), "ns", ours / all, rust / all);
}

/// A turn: what more turns add to the time of few, so that the start does not count.
fn turn(n: usize) {
    const FEW: usize = 1;
    const MANY: usize = 17;
    let nodes = n * n * n;
    let b = values(n);
    let mut block = vec![0.0; 4 * nodes];
    let [x, r, p, ap] = side_by_side(&mut block);
    let mut ours = |cap: usize| {
        x.fill(0.0);
        best(1, || solver::conjugate_gradient(black_box(&b), x, [&mut *r, &mut *p, &mut *ap], n, 0.0, cap))
    };
    let mut theirs = vec![0.0; nodes];
    let mut rust = |cap: usize| {
        let config = PoissonConfig { max_iterations: cap, tolerance: 0.0, ..PoissonConfig::default() };
        theirs.fill(0.0);
        best(1, || loops::conjugate_gradient(black_box(&b), &mut theirs, n, &config))
    };
    let least = |run: &mut dyn FnMut(usize) -> f64, cap: usize| (0..RUNS).map(|_| run(cap)).fold(f64::INFINITY, f64::min);
    let all = ((MANY - FEW) * nodes) as f64;
    let ours_each = (-least(&mut ours, FEW) + least(&mut ours, MANY)) / all;
    let rust_each = (-least(&mut rust, FEW) + least(&mut rust, MANY)) / all;
    assert_same(x, &theirs, "conjugate gradients");
    row(&format!("a turn, {n} nodes per side"), "ns", ours_each, rust_each);
}

/// Points on a torus of radius 1 and tube 0.35, with their normals.
fn torus(count: usize) -> Vec<f32> {
    let mut patterns = Patterns::new(17);
    let mut angle = || (patterns.bits() >> 11) as f64 / (1u64 << 53) as f64 * TAU;
    (0..count)
        .flat_map(|_| {
            let (a, b) = (angle(), angle());
            let q = 1.0 + 0.35 * b.cos();
            [a.cos() * q, a.sin() * q, 0.35 * b.sin(), a.cos() * b.cos(), a.sin() * b.cos(), b.sin()]
        })
        .map(|v| v as f32)
        .collect()
}

fn solve(depth: u32, runs: usize) {
    let points = torus(10_000);
    let extent = brute::extent(&points);
    let spacing = brute::spacing(&points, extent);
    let (origin, size) = ([-extent * 0.6; 3], extent * 1.2);
    let config = PoissonConfig { depth, ..PoissonConfig::default() };
    let ours = solver::Problem { origin, size, spacing, smoothing: config.smoothing, cap: config.max_iterations, tolerance: config.tolerance };
    let rust = loops::Problem::new(&points, origin, size, spacing, config);
    let mut block = vec![0.0; 7 << (3 * depth)];
    let ours_time = best(runs, || solver::solve(&points, &ours, depth, side_by_side(&mut block)));
    let mut theirs = vec![];
    let rust_time = best(runs, || theirs = rust.solve(depth));
    assert_same(&block[..theirs.len()], &theirs, "the solution");
    assert!(block[theirs.len()..].iter().all(|v| v.to_bits() == 0), "the scratch is cleared");
    row(&format!("solve, depth {depth}, 10,000 points"), "ms", ours_time / 1e6, rust_time / 1e6);
}

fn main() {
    for n in [64, 128] {
        apply(n);
        blur(n, 0.5);
        blur(n, 2.0);
        turn(n);
    }
    solve(6, 7);
    solve(7, 3);
}
