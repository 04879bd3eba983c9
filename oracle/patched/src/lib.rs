//! The oracle: the published Rust with the substitutions of document 01, behind the numbers of refusal.
//!
//! `build.rs` makes the text of the module `poisson` from the published one; marching_cubes.rs and the k-d tree are as
//! published. [`answer`] is one call.
pub mod calls;
pub mod cases;
pub mod sheets;
pub mod window;

#[rustfmt::skip]
#[allow(dead_code)]
#[path = "../../seed/threecrate-reconstruction/src/marching_cubes.rs"]
mod marching_cubes;
#[rustfmt::skip]
#[allow(dead_code)]
#[path = "../../seed/threecrate-reconstruction/src/parallel.rs"]
mod parallel;

#[allow(dead_code, unused, clippy::all)]
mod poisson {
    include!(concat!(env!("OUT_DIR"), "/poisson.rs"));
    pub mod loops;
}

pub use poisson::{loops, PoissonConfig};
pub use window::Seen;

use std::time::Duration;
use threecrate_core::{Error, NormalPoint3f, Point3f, PointCloud, Result, TriangleMesh, Vector3f};

/// The text of `poisson` as it is compiled.
pub const PATCHED_TEXT: &str = include_str!(concat!(env!("OUT_DIR"), "/poisson.rs"));

/// 01: number 7 is also given over this many points.
pub const MOST_POINTS: usize = 1_048_576;

/// Lengths, in elements, of the slices that are lent with a call.
#[derive(Debug, Clone, Copy, Default, PartialEq)]
pub struct Room {
    pub grids: [usize; 7],
    pub edges: usize,
    pub distances: usize,
    pub vertices: usize,
    pub faces: usize,
    /// Given points; the length that `distances` must have.
    pub given: usize,
}

impl Room {
    /// Exactly the scratch that 01 states, and room for any mesh.
    pub fn ample(depth: u32, given: usize) -> Self {
        let n = 1usize << depth.min(8);
        let nodes = n * n * n;
        Self {
            grids: [nodes; 7],
            edges: 3 * nodes,
            distances: given,
            vertices: 3 * 3 * n * n * n.saturating_sub(1),
            faces: 3 * 5 * n.saturating_sub(1).pow(3),
            given,
        }
    }

    /// Number 8.
    pub fn scratch_is_short(&self, nodes: usize) -> bool {
        self.grids.iter().any(|&g| g < nodes) || self.edges < 3 * nodes || self.distances < self.given
    }
}

/// The answer of 01, "What crosses the counter", and what was seen on the way.
#[derive(Debug, Clone, Default)]
pub struct Outcome {
    pub number: u32,
    pub usable: usize,
    pub vertices: Vec<[f32; 3]>,
    pub faces: Vec<[u32; 3]>,
    pub level: f32,
    pub low: [f32; 3],
    pub high: [f32; 3],
    pub seen: Seen,
}

/// One call: number 7, then the published function.
pub fn answer(points: &[f32], config: &PoissonConfig, room: &Room) -> Outcome {
    if !points.len().is_multiple_of(6) || points.len() / 6 > MOST_POINTS {
        return Outcome { number: 7, ..Outcome::default() };
    }
    answer_of(points, room, |cloud| poisson::poisson_reconstruction(cloud, config))
}

/// The same of another version of the published function, with the windows in its text.
pub fn answer_of(
    points: &[f32],
    room: &Room,
    function: impl FnOnce(&PointCloud<NormalPoint3f>) -> Result<TriangleMesh>,
) -> Outcome {
    window::open(Room { given: points.len() / 6, ..*room });
    let result = function(&cloud(points));
    let seen = window::close();
    match result {
        Err(error) => Outcome { number: number(&error), seen, ..Outcome::default() },
        Ok(mesh) => accepted(&mesh, seen),
    }
}

fn cloud(points: &[f32]) -> PointCloud<NormalPoint3f> {
    let point =
        |c: &[f32]| NormalPoint3f { position: Point3f::new(c[0], c[1], c[2]), normal: Vector3f::new(c[3], c[4], c[5]) };
    PointCloud { points: points.chunks_exact(6).map(point).collect() }
}

/// 01's number for each error of the published text, and for those of `window`.
fn number(error: &Error) -> u32 {
    let (Error::InvalidData(text) | Error::Algorithm(text)) = error;
    if let Some(number) = text.strip_prefix("refused ") {
        return number.parse().expect("the window writes a number");
    }
    let words = ["is empty", "depth must be", "smoothing must be", "too small", "all in one spot", "no triangles"];
    let place = words.iter().position(|w| text.contains(w)).expect("an error of the text");
    place as u32 + 1
}

fn accepted(mesh: &TriangleMesh, seen: Seen) -> Outcome {
    let vertices: Vec<[f32; 3]> = mesh.vertices.iter().map(|v| [v.x, v.y, v.z].map(canonical)).collect();
    let (low, high) = bounds(&vertices);
    Outcome {
        number: 0,
        usable: seen.usable,
        faces: mesh.faces.iter().map(|f| f.map(|v| v as u32)).collect(),
        level: seen.level,
        vertices,
        low,
        high,
        seen,
    }
}

/// 01: "the box starts at vertex 0 and a coordinate is replaced when a later one is strictly smaller (low) or larger (high)".
fn bounds(vertices: &[[f32; 3]]) -> ([f32; 3], [f32; 3]) {
    let (mut low, mut high) = (vertices[0], vertices[0]);
    for v in vertices {
        for a in 0..3 {
            if v[a] < low[a] {
                low[a] = v[a];
            }
            if v[a] > high[a] {
                high[a] = v[a];
            }
        }
    }
    (low, high)
}

// ---- the substitutions ----

/// 01: "Every NaN stored or answered is 7FC00000".
pub fn canonical(v: f32) -> f32 {
    if v.is_nan() {
        f32::from_bits(0x7FC0_0000)
    } else {
        v
    }
}

/// 01's exponential of -x, bit for bit.
pub fn exp_neg(x: f64) -> f32 {
    let u = x / 64.0;
    let mut s = 1.0f64;
    for m in (1..=8).rev() {
        s = 1.0 - (u * s) / m as f64;
    }
    for _ in 0..6 {
        s *= s;
    }
    canonical(s as f32)
}

pub fn squared_distance(a: &Point3f, b: &Point3f) -> f32 {
    let (dx, dy, dz) = (a.x - b.x, a.y - b.y, a.z - b.z);
    (dx * dx + dy * dy) + dz * dz
}

/// The two smallest distances from `query`, itself included, in the shape of the tree's answer; the caller reads no index.
pub fn two_nearest(points: &[Point3f], query: &Point3f) -> Vec<(usize, f32)> {
    let (mut first, mut second) = (f32::INFINITY, f32::INFINITY);
    for p in points {
        let d = squared_distance(p, query).sqrt();
        if d < first {
            second = first;
            first = d;
        } else if d < second {
            second = d;
        }
    }
    vec![(0, first), (0, second)]
}

// ---- time ----

/// What one of the system's clocks shows.
fn clock(id: i32) -> Duration {
    #[repr(C)]
    struct Timespec {
        seconds: i64,
        nanoseconds: i64,
    }
    extern "C" {
        fn clock_gettime(clock: i32, time: *mut Timespec) -> i32;
    }
    let mut time = Timespec { seconds: 0, nanoseconds: 0 };
    // The call writes one Timespec, which is ours.
    unsafe { clock_gettime(id, &mut time) };
    Duration::new(time.seconds as u64, time.nanoseconds as u32)
}

/// Processor time that this thread has used: other work on the machine does not count.
pub fn thread_time() -> Duration {
    const CLOCK_THREAD_CPUTIME_ID: i32 = 3;
    clock(CLOCK_THREAD_CPUTIME_ID)
}

/// Processor time that all threads of the process have used.
pub fn process_time() -> Duration {
    const CLOCK_PROCESS_CPUTIME_ID: i32 = 2;
    clock(CLOCK_PROCESS_CPUTIME_ID)
}
