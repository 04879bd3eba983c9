//! The published text with one of document 01's substitutions at a time, and in what two answers differ.
//!
//! rayon's own sums have no fixed order. In its place `in_parts` adds each dot product as rayon does on two threads when neither
//! takes work from the other; `published` adds in index order, as all other versions do.
mod difference;

pub use difference::{Difference, Effect};

#[rustfmt::skip]
#[allow(dead_code)]
#[path = "../../seed/threecrate-reconstruction/src/marching_cubes.rs"]
mod marching_cubes;
#[rustfmt::skip]
#[allow(dead_code)]
#[path = "../../seed/threecrate-reconstruction/src/parallel.rs"]
mod parallel;

use oracle::{answer_of, exp_neg, squared_distance, two_nearest, window, Outcome, PoissonConfig, Room};

/// The sum of products, halved so many times; a part is added in index order from -0.0.
fn sum_in_parts(a: &[f32], b: &[f32], halvings: u32) -> f64 {
    if halvings == 0 {
        return a.iter().zip(b).map(|(&x, &y)| x as f64 * y as f64).sum();
    }
    let ((a, c), (b, d)) = (a.split_at(a.len() / 2), b.split_at(b.len() / 2));
    sum_in_parts(a, b, halvings - 1) + sum_in_parts(c, d, halvings - 1)
}

macro_rules! versions {
    ($($name:ident: $file:literal;)*) => {
        $(
            /// One call of this version; 7 to 10 do not occur.
            pub fn $name(points: &[f32], c: &PoissonConfig) -> Outcome {
                #[allow(dead_code, unused, clippy::all)]
                mod text {
                    include!(concat!(env!("OUT_DIR"), "/", $file));
                }
                let config = text::PoissonConfig {
                    depth: c.depth,
                    smoothing: c.smoothing,
                    iso_offset: c.iso_offset,
                    trim_distance: c.trim_distance,
                    max_iterations: c.max_iterations,
                    tolerance: c.tolerance,
                };
                answer_of(points, &Room::ample(c.depth, points.len() / 6), |cloud| text::poisson_reconstruction(cloud, &config))
            }
        )*
    };
}

versions! {
    published: "published.rs";
    exponential: "exponential.rs";
    in_parts: "in_parts.rs";
    search: "search.rs";
    finite_search: "finite_search.rs";
    at_most: "at_most.rs";
}

/// All substitutions: the oracle.
pub fn all(points: &[f32], config: &PoissonConfig) -> Outcome {
    oracle::answer(points, config, &Room::ample(config.depth, points.len() / 6))
}

/// Blur weights, sigma from 0.5 to 6.0 in steps of 1e-5: how many, and how many differ between the two exponentials.
pub fn blur_weights() -> (u64, u64) {
    let (mut all, mut differ) = (0, 0);
    for step in 0..=550_000 {
        let sigma = 0.5 + f64::from(step) * 1e-5;
        for d in 0..=(3.0 * sigma).ceil() as i32 {
            let x = f64::from(d * d) / (2.0 * sigma * sigma);
            all += 1;
            differ += u64::from(exp_neg(x).to_bits() != ((-x).exp() as f32).to_bits());
        }
    }
    (all, differ)
}
