//! The text's own stages one by one, for benchmarks. They are private there, so this module lies inside it.
use super::{Grid, PoissonConfig, Samples};

fn grid(nodes: usize) -> Grid {
    Grid { n: nodes, origin: [0.0; 3], h: 1.0 }
}

pub fn blur_axis(values: &[f32], nodes: usize, axis: usize, sigma: f64) -> Vec<f32> {
    super::blur_axis(&grid(nodes), values, axis, sigma)
}

pub fn apply(x: &[f32], y: &mut [f32], nodes: usize) {
    super::apply(&grid(nodes), x, y)
}

pub fn conjugate_gradient(b: &[f32], x: &mut [f32], nodes: usize, config: &PoissonConfig) {
    super::conjugate_gradient(&grid(nodes), b, x, config)
}

/// What `solve` takes, but for the depth.
pub struct Problem {
    samples: Samples,
    origin: [f64; 3],
    size: f64,
    spacing: f64,
    config: PoissonConfig,
}

impl Problem {
    pub fn new(points: &[f32], origin: [f64; 3], size: f64, spacing: f64, config: PoissonConfig) -> Self {
        let samples = Samples::from_cloud(&crate::cloud(points)).expect("the text never refuses here");
        Self { samples, origin, size, spacing, config }
    }

    pub fn solve(&self, depth: u32) -> Vec<f32> {
        super::solve(self.origin, self.size, depth, &self.samples, self.spacing, &self.config).1
    }
}
