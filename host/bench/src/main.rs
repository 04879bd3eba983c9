//! `bench`, or `bench 3` for the best of three runs: the library's times beside the Rust's, as two tables.
//!
//! The scan is a ring of radius 100 and tube 35 with a third missing, settings are the defaults but for the depth. Both sides run on
//! one thread; scripts/rayon-times has the Rust on two. Processor time of the thread is the figure to trust on a machine that does
//! other work; the best of the repeats counts. "Rust" is the published text, whose nearest neighbours come from a tree.
use calls::random::Random;
use calls::shapes;
use effects::published;
use hoardmagpie::{field, reconstruct, Point, Settings, Trimming};
use oracle::{thread_time, Outcome, PoissonConfig};
use std::time::Instant;

/// Seconds of processor time, and on the clock.
#[derive(Clone, Copy)]
struct Time {
    cpu: f64,
    wall: f64,
}

/// The best of some runs, and what the last one gave.
fn best<T>(repeats: usize, mut run: impl FnMut() -> T) -> (Time, T) {
    let mut time = Time { cpu: f64::INFINITY, wall: f64::INFINITY };
    let mut result = None;
    for _ in 0..repeats {
        let (cpu, wall) = (thread_time(), Instant::now());
        result = Some(run());
        time.cpu = time.cpu.min((thread_time() - cpu).as_secs_f64());
        time.wall = time.wall.min(wall.elapsed().as_secs_f64());
    }
    (time, result.expect("at least one run"))
}

/// One scan at one depth.
struct Job {
    points: Vec<Point>,
    depth: u32,
    repeats: usize,
}

/// The steps at which extraction and trimming are timed, so that the solver's time does not hide theirs.
const FEW_STEPS: usize = 20;

/// Processor seconds of the stages.
struct Stages {
    /// Points, box, spacing, the right sides of all levels, the level.
    right_sides: f64,
    solver: f64,
    /// Extraction, orientation and the vertices' box.
    surface: f64,
    trimming: f64,
}

impl Job {
    fn new(count: usize, depth: u32, repeats: usize) -> Job {
        let flat = shapes::placed(&shapes::ring(&mut Random(count as u64), count, 0.35), 100.0, [0.0; 3]);
        Job { points: flat.as_chunks().0.to_vec(), depth, repeats }
    }

    fn settings(&self, steps: Option<usize>, trimming: Trimming) -> Settings {
        let defaults = Settings::default();
        Settings { depth: self.depth, trimming, iterations: steps.unwrap_or(defaults.iterations), ..defaults }
    }

    fn library(&self, steps: Option<usize>, trimming: Trimming) -> (Time, [usize; 2]) {
        let settings = self.settings(steps, trimming);
        let (time, mesh) = best(self.repeats, || reconstruct(&self.points, &settings).expect("the ring is accepted"));
        (time, [mesh.vertices.len(), mesh.faces.len()])
    }

    /// Processor seconds until the field is there.
    fn library_field(&self, steps: Option<usize>) -> f64 {
        let settings = self.settings(steps, Trimming::Off);
        best(self.repeats, || field(&self.points, &settings).expect("the ring is accepted")).0.cpu
    }

    fn rust(&self, steps: Option<usize>, trimming: Option<f32>) -> (Time, Outcome) {
        let defaults = PoissonConfig::default();
        let config = PoissonConfig {
            depth: self.depth,
            trim_distance: trimming,
            max_iterations: steps.unwrap_or(defaults.max_iterations),
            ..defaults
        };
        best(self.repeats, || published(self.points.as_flattened(), &config))
    }

    fn rust_field(&self, steps: Option<usize>) -> f64 {
        self.rust(steps, None).1.seen.field_time.as_secs_f64()
    }

    fn library_stages(&self, field: f64) -> Stages {
        let right_sides = self.library_field(Some(0));
        let few = Some(FEW_STEPS);
        let whole = self.library(few, Trimming::Off).0.cpu;
        Stages {
            right_sides,
            solver: field - right_sides,
            surface: whole - self.library_field(few),
            trimming: self.library(few, Trimming::Within(DISTANCE)).0.cpu - whole,
        }
    }

    fn rust_stages(&self, field: f64) -> Stages {
        let right_sides = self.rust_field(Some(0));
        let (whole, outcome) = self.rust(Some(FEW_STEPS), None);
        Stages {
            right_sides,
            solver: field - right_sides,
            surface: whole.cpu - outcome.seen.field_time.as_secs_f64(),
            trimming: self.rust(Some(FEW_STEPS), Some(DISTANCE)).0.cpu - whole.cpu,
        }
    }

    /// The row of the first table, and the stages of both sides.
    fn run(&self) -> (String, [Stages; 2]) {
        let (ours, size) = self.library(None, Trimming::Off);
        let (rust, outcome) = self.rust(None, None);
        assert_eq!([outcome.vertices.len(), outcome.faces.len()], size, "the Rust's mesh is another");
        let row = format!(
            "| {} | {} | {} / {} | {:.3} / {:.3} | {:.3} / {:.3} | {:.2} |",
            self.points.len(),
            self.depth,
            size[0],
            size[1],
            ours.cpu,
            ours.wall,
            rust.cpu,
            rust.wall,
            ours.cpu / rust.cpu
        );
        let field = self.library_field(None);
        (row, [self.library_stages(field), self.rust_stages(outcome.seen.field_time.as_secs_f64())])
    }
}

/// Trimming's distance in the benchmark.
const DISTANCE: f32 = 2.0;

fn stage_row(job: &Job, [ours, rust]: &[Stages; 2]) -> String {
    let pair = |a: f64, b: f64| format!("{a:.3} / {b:.3} = {:.1}", a / b);
    format!(
        "| {} | {} | {} | {} | {} | {} |",
        job.points.len(),
        job.depth,
        pair(ours.right_sides, rust.right_sides),
        pair(ours.solver, rust.solver),
        pair(ours.surface, rust.surface),
        pair(ours.trimming, rust.trimming)
    )
}

fn main() {
    let repeats = std::env::args().nth(1).map_or(1, |w| w.parse().expect("a number of repeats"));
    println!(
        "Seconds of processor time / on the clock, one thread, best of {repeats}; the ratio is of processor time.\n"
    );
    println!("| points | depth | V / F | library | Rust | ratio |\n|---|---|---|---|---|---|");
    let mut stages = Vec::new();
    for depth in [5, 6, 7] {
        for count in [10_000, 100_000] {
            let job = Job::new(count, depth, repeats);
            let (row, both) = job.run();
            println!("{row}");
            stages.push(stage_row(&job, &both));
        }
    }
    println!(
        "\nProcessor seconds of the stages, library / Rust = ratio; the last two with {FEW_STEPS} steps a level.\n"
    );
    println!("| points | depth | points to right sides | solver | extraction, orientation, box | trimming within {DISTANCE} |");
    println!("|---|---|---|---|---|---|\n{}", stages.join("\n"));
}
