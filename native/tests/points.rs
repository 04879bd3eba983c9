//! The exported functions of `points`, `search` and `grid`, by bits, against the same in Rust.
use native::{brute, points, stored64, Patterns};

/// Points of any patterns, points near each other, exact doubles, and points far apart.
fn cloud(kind: u64, count: usize) -> Vec<f32> {
    let mut patterns = Patterns::new(kind * 77 + 1);
    let mut all: Vec<f32> = Vec::new();
    for i in 0..count {
        let last = all.len().saturating_sub(6);
        let double = kind % 3 == 0 && i % 5 == 4;
        let scale = [1.0, 1e-20, 1e19, 1e38][kind as usize % 4];
        let any = kind % 5 == 4;
        for axis in 0..6 {
            let b = patterns.bits();
            let near = ((b >> 40) as f32 / (1 << 23) as f32 - 1.0) * if axis < 3 { scale } else { 1.0 };
            all.push(if double { all[last + axis] } else if any || b % 50 == 0 { f32::from_bits(b as u32) } else { near });
        }
    }
    all
}

#[test]
fn spacing_and_counts() {
    for kind in 0..60 {
        let given = cloud(kind, [0, 1, 2, 9, 40, 300][kind as usize % 6]);
        let mut list = vec![1.0; given.len() / 6 + 2];
        let extent = points::extent(&given);
        assert_eq!(points::usable_count(&given), brute::usable_count(&given), "usable count of cloud {kind}");
        assert_eq!(extent.to_bits(), brute::extent(&given).to_bits(), "extent of cloud {kind}");
        assert_eq!(points::spacing(&given, &mut list, extent).to_bits(), brute::spacing(&given, extent).to_bits(), "spacing of cloud {kind}");
        assert!(list.iter().all(|x| x.to_bits() == 0), "the list is cleared");
    }
}

#[test]
fn samples() {
    let mut patterns = Patterns::new(3);
    for n in [2, 3, 8, 16] {
        for kind in 0..3 {
            let values: Vec<f32> = (0..n * n * n)
                .map(|_| {
                    let b = patterns.bits();
                    [(b >> 40) as f32, -0.0, f32::from_bits(b as u32)][kind]
                })
                .collect();
            for _ in 0..5000 {
                let p = [0; 3].map(|_| if patterns.bits() % 40 == 0 { patterns.any() } else { (patterns.bits() >> 11) as f64 / (1u64 << 53) as f64 * 1.4 - 0.7 });
                let (origin, h) = ([-0.5; 3], 1.0 / (n - 1) as f64);
                let (ours, theirs) = (points::sample(&values, n, origin, h, p), brute::sample(&values, n, origin, h, p));
                assert_eq!(stored64(ours), stored64(theirs), "sample at {p:?} of {n} nodes");
            }
        }
    }
}
