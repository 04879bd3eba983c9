//! marching_cubes.rs and poisson.rs are as published; parallel.rs is a stand-in.
#[rustfmt::skip]
pub mod marching_cubes;
pub mod parallel;
#[rustfmt::skip]
pub mod poisson;
