//! The exported passes of `extract`, by bits, against the published Rust: small cubes of values that cross, touch and miss the level.
use native::extract::{flat, number_edges, published, write_mesh, Cube};
use native::{stored32, Patterns};

/// Noise; noise that often equals the level; noise with NaN and infinities; any patterns.
fn cube(kind: usize, nodes: usize, patterns: &mut Patterns) -> Cube {
    let values = (0..nodes.pow(3))
        .map(|_| {
            let b = patterns.bits();
            let noise = (b >> 40) as f32 / (1 << 23) as f32 - 1.0;
            match (kind, b % 8) {
                (1, 0..=3) => 0.25,
                (2, 0) => f32::NAN,
                (2, 1) => f32::INFINITY,
                (2, 2) => f32::NEG_INFINITY,
                (3, _) => f32::from_bits(b as u32),
                _ => noise,
            }
        })
        .collect();
    Cube { values, nodes, origin: [-0.5, 3.0, 1e6], step: 1.0 / (nodes - 1) as f64 }
}

#[test]
fn meshes() {
    let mut patterns = Patterns::new(9);
    for round in 0..200 {
        let kind = round % 4;
        let cube = cube(kind, [2, 3, 5, 8, 12][round % 5], &mut patterns);
        for iso in [0.25, 0.0, -0.9, 1.0, f32::NAN] {
            let mut table = vec![7; 3 * cube.values.len()];
            let [v, f] = number_edges(&cube, iso, &mut table);
            let (mut vertices, mut faces) = (vec![1.0; 3 * v], vec![1; 3 * f]);
            write_mesh(&cube, iso, &table, &mut vertices, &mut faces);
            let (places, numbers) = flat(&published(&cube, iso));
            assert_eq!(faces, numbers, "faces of round {round} at {iso}");
            // The pattern that is stored, beside the pattern that 01 stores for what the Rust gives.
            assert!(vertices.iter().map(|x| x.to_bits()).eq(places.iter().map(|&x| stored32(x))), "vertices of round {round} at {iso}");
        }
    }
}
