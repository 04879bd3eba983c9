//! What spacing, counting and a sample cost on this machine, beside the same work in Rust over the same flat slice: the best of several runs, in processor time.
//! usage: cargo run --release --bin points_bench        (in native/, after scripts/native-archive points_export)
use native::clock::best;
use native::{brute, points, Patterns};
use std::hint::black_box;

/// Points on the unit sphere with their normals; every hundredth is unusable.
fn sphere(count: usize) -> Vec<f32> {
    let mut patterns = Patterns::new(11);
    let mut all = Vec::with_capacity(count * 6);
    while all.len() < count * 6 {
        let [x, y, z] = [0; 3].map(|_| (patterns.bits() >> 40) as f32 / (1 << 23) as f32 - 1.0);
        let r = (x * x + y * y + z * z).sqrt();
        if (0.1..1.0).contains(&r) {
            let skip = all.len() / 6 % 100 == 99;
            let normal = if skip { [0.0; 3] } else { [x, y, z] };
            all.extend([x / r, y / r, z / r]);
            all.extend(normal);
        }
    }
    all
}

fn row(name: &str, unit: &str, ours: f64, theirs: f64) {
    println!("{name:32} {ours:9.2} {unit}   Rust {theirs:9.2} {unit}   ratio {:.2}", ours / theirs);
}

fn clouds(count: usize, runs: usize) {
    let cloud = sphere(count);
    let mut list = vec![0f32; count];
    let extent = points::extent(&cloud);
    assert_eq!(points::spacing(&cloud, &mut list, extent).to_bits(), brute::spacing(&cloud, extent).to_bits());
    let ours = best(runs, || {
        black_box(points::spacing(black_box(&cloud), &mut list, extent));
    });
    let theirs = best(runs, || {
        black_box(brute::spacing(black_box(&cloud), extent));
    });
    row(&format!("spacing, {count} points"), "ms", ours / 1e6, theirs / 1e6);
    let ours = best(9, || {
        black_box(points::usable_count(black_box(&cloud)));
    });
    let theirs = best(9, || {
        black_box(brute::usable_count(black_box(&cloud)));
    });
    row(&format!("usable count, {count} points"), "ms", ours / 1e6, theirs / 1e6);
}

/// Samples at a million places: random ones, points of a scan in no order (a sphere in its cube), and places that follow each other along a row.
fn samples(n: usize) {
    let mut patterns = Patterns::new(5);
    let values: Vec<f32> = (0..n * n * n).map(|_| (patterns.bits() >> 40) as f32).collect();
    let (origin, h) = ([-0.5; 3], 1.0 / (n - 1) as f64);
    let random: Vec<[f64; 3]> = (0..1 << 20).map(|_| [0; 3].map(|_| (patterns.bits() >> 11) as f64 / (1u64 << 53) as f64 - 0.5)).collect();
    let row_of: Vec<[f64; 3]> = (0..1 << 20).map(|k| [0.1, 0.2, k as f64 / (1 << 20) as f64 - 0.5]).collect();
    let scan: Vec<[f64; 3]> = sphere(1 << 20).chunks(6).map(|p| [0, 1, 2].map(|a| f64::from(p[a]) * 0.5 / 1.2)).collect();
    for (name, places) in [("random", &random), ("a scan", &scan), ("in a row", &row_of)] {
        let each = |call: fn(&[f32], usize, [f64; 3], f64, [f64; 3]) -> f64| {
            let all = best(9, || {
                for &p in places {
                    black_box(call(&values, n, origin, h, black_box(p)));
                }
            });
            all / places.len() as f64
        };
        row(&format!("sample, {n} nodes, {name}"), "ns", each(points::sample), each(brute::sample));
    }
}

fn main() {
    samples(32);
    samples(128);
    clouds(100_000, 5);
    clouds(1_048_576, 3);
}
