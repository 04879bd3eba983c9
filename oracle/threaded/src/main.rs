//! threaded [REPEATS]        times of the published Rust with the real rayon, on one thread and on all, as a table
//! threaded calls COUNT      generated calls on all threads, beside the oracle
//!
//! The times are of the same scans as in host's `bench`. Processor time is that of all threads together; the best of the
//! repeats counts.
use calls::random::Random;
use calls::{aimed, shapes, sound, Call};
use oracle::process_time;
use rayon::{ThreadPool, ThreadPoolBuilder};
use std::time::Instant;
use threecrate_core::{NormalPoint3f, Point3f, PointCloud, TriangleMesh, Vector3f};
use threecrate_reconstruction::poisson::{poisson_reconstruction, PoissonConfig};

fn cloud(flat: &[f32]) -> PointCloud<NormalPoint3f> {
    let point =
        |p: &[f32]| NormalPoint3f { position: Point3f::new(p[0], p[1], p[2]), normal: Vector3f::new(p[3], p[4], p[5]) };
    PointCloud { points: flat.chunks_exact(6).map(point).collect() }
}

fn pool(threads: usize) -> ThreadPool {
    ThreadPoolBuilder::new().num_threads(threads).build().expect("a pool of threads")
}

fn all_threads() -> usize {
    std::thread::available_parallelism().map_or(1, usize::from)
}

// ---- times ----

fn ring(count: usize) -> PointCloud<NormalPoint3f> {
    cloud(&shapes::placed(&shapes::ring(&mut Random(count as u64), count, 0.35), 100.0, [0.0; 3]))
}

/// Processor time, time on the clock, vertices and faces.
fn best(cloud: &PointCloud<NormalPoint3f>, depth: u32, threads: usize, repeats: usize) -> (f64, f64, usize, usize) {
    let pool = pool(threads);
    let config = PoissonConfig { depth, ..Default::default() };
    let mut best = (f64::INFINITY, f64::INFINITY, 0, 0);
    for _ in 0..repeats {
        let (cpu, wall) = (process_time().as_secs_f64(), Instant::now());
        let mesh = pool.install(|| poisson_reconstruction(cloud, &config)).expect("the ring is accepted");
        best = (
            best.0.min(process_time().as_secs_f64() - cpu),
            best.1.min(wall.elapsed().as_secs_f64()),
            mesh.vertices.len(),
            mesh.faces.len(),
        );
    }
    best
}

fn times(repeats: usize) {
    let all = all_threads();
    println!("Seconds of processor time / on the clock, best of {repeats}.\n");
    println!("| points | depth | V / F | 1 thread | {all} threads |\n|---|---|---|---|---|");
    for depth in [5, 6, 7] {
        for count in [10_000, 100_000] {
            let cloud = ring(count);
            let (cpu, wall, v, f) = best(&cloud, depth, 1, repeats);
            let (cpus, walls, ..) = best(&cloud, depth, all, repeats);
            println!("| {count} | {depth} | {v} / {f} | {cpu:.3} / {wall:.3} | {cpus:.3} / {walls:.3} |");
        }
    }
}

// ---- beside the oracle ----

/// Whether the mesh, or that there is none, is the oracle's, bit for bit.
fn agrees(pool: &ThreadPool, call: &Call) -> bool {
    let c = &call.config;
    let config = PoissonConfig {
        depth: c.depth,
        smoothing: c.smoothing,
        iso_offset: c.iso_offset,
        trim_distance: c.trim_distance,
        max_iterations: c.max_iterations,
        tolerance: c.tolerance,
    };
    let wanted = call.oracle();
    let place =
        |mesh: &TriangleMesh, v: usize| [mesh.vertices[v].x, mesh.vertices[v].y, mesh.vertices[v].z].map(f32::to_bits);
    match pool.install(|| poisson_reconstruction(&cloud(&call.points), &config)) {
        Err(_) => wanted.number != 0,
        Ok(mesh) => {
            mesh.vertices.len() == wanted.vertices.len()
                && (0..mesh.vertices.len()).all(|v| place(&mesh, v) == wanted.vertices[v].map(f32::to_bits))
                && mesh.faces.iter().map(|f| f.map(|v| v as u32)).eq(wanted.faces.iter().copied())
        }
    }
}

fn beside_the_oracle(count: usize) {
    let (pool, mut r) = (pool(all_threads()), Random(1));
    let kinds = [("sound scans", false), ("levels and tolerances set on a value", true)];
    for (name, aim) in kinds {
        let (mut calls, mut differ) = (0, 0);
        while calls < count {
            let depth = r.pick(&[3, 3, 3, 4, 4, 5]);
            let base = sound(&mut r, depth);
            for call in if aim { aimed(&mut r, &base) } else { vec![base] } {
                calls += 1;
                differ += usize::from(!agrees(&pool, &call));
            }
        }
        println!("{name}: {calls} calls, {differ} differ");
    }
}

fn main() {
    let words: Vec<String> = std::env::args().skip(1).collect();
    let number = |word: &str| word.parse().expect("a number");
    match words.iter().map(String::as_str).collect::<Vec<_>>()[..] {
        [] => times(1),
        ["calls", count] => beside_the_oracle(number(count)),
        [repeats] => times(number(repeats)),
        _ => panic!("usage: threaded [REPEATS] | threaded calls COUNT"),
    }
}
