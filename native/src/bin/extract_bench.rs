//! What extraction costs on this machine, both passes, beside `extract_shared` of the published marching_cubes.rs on one thread: the best of several runs, in
//! processor time. The two meshes are compared bit for bit.
//! usage: cargo run --release --bin extract_bench        (in native/, after scripts/native-archive extract_export)
use native::clock::best;
use native::extract::{flat, number_edges, published, write_mesh, Cube};
use std::hint::black_box;

/// A field over the cube from -1 to 1.
fn cube(depth: u32, field: fn(f64, f64, f64) -> f64) -> Cube {
    let nodes = 1usize << depth;
    let step = 2.0 / (nodes - 1) as f64;
    let at = |count: usize| -1.0 + count as f64 * step;
    let values = (0..nodes.pow(3)).map(|n| field(at(n / (nodes * nodes)), at(n / nodes % nodes), at(n % nodes)) as f32).collect();
    Cube { values, nodes, origin: [-1.0; 3], step }
}

fn sphere(x: f64, y: f64, z: f64) -> f64 {
    (x * x + y * y + z * z).sqrt() - 0.7
}

fn torus(x: f64, y: f64, z: f64) -> f64 {
    (((x * x + y * y).sqrt() - 0.6).powi(2) + z * z).sqrt() - 0.25
}

fn run(name: &str, depth: u32, field: fn(f64, f64, f64) -> f64) {
    let cube = cube(depth, field);
    let mut table = vec![0u32; 3 * cube.values.len()];
    let [v, f] = number_edges(&cube, 0.0, &mut table);
    let (mut vertices, mut faces) = (vec![0f32; 3 * v], vec![0u32; 3 * f]);
    write_mesh(&cube, 0.0, &table, &mut vertices, &mut faces);
    let bits = |places: &[f32]| places.iter().map(|x| x.to_bits()).collect::<Vec<_>>();
    let (places, numbers) = flat(&published(&cube, 0.0));
    assert!(bits(&vertices) == bits(&places) && faces == numbers, "the two meshes differ");
    let first = best(15, || {
        black_box(number_edges(black_box(&cube), 0.0, &mut table));
    });
    let second = best(15, || write_mesh(black_box(&cube), 0.0, &table, &mut vertices, &mut faces));
    let theirs = best(15, || {
        black_box(published(black_box(&cube), 0.0));
    });
    println!(
        "{name}, depth {depth}, {v} vertices: {:6.2} + {:6.2} ms   Rust {:6.2} ms   ratio {:.2}",
        first / 1e6,
        second / 1e6,
        theirs / 1e6,
        (first + second) / theirs
    );
}

fn main() {
    for depth in [6, 7] {
        run("sphere", depth, sphere);
        run("torus", depth, torus);
    }
}
