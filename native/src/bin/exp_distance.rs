//! How far 01's exponential of -x is from Rust's `exp`, in steps of f32, for x from 0 to 12.5.
//! usage: cargo run --release --bin exp_distance [list]        (in native/, after scripts/native-archive arith_export)
//! With `list` it writes the list that the crate `exp_distance` replays: Rust's exponential of -k/320 for k = 0..4000, as f32 patterns.
use native::exp_neg;

fn rust(x: f64) -> f32 {
    (-x).exp() as f32
}

fn main() {
    if std::env::args().nth(1).as_deref() == Some("list") {
        for k in 0..=4000 {
            println!("{:08X}", rust(k as f64 / 320.0).to_bits());
        }
        return;
    }
    let (mut values, mut differ, mut worst) = (0u64, 0u64, 0u32);
    let steps = 12.5 * f64::powi(2.0, 20);
    for k in 0..=steps as u64 {
        let x = k as f64 / f64::powi(2.0, 20);
        let distance = exp_neg(x).to_bits().abs_diff(rust(x).to_bits());
        values += 1;
        differ += (distance != 0) as u64;
        worst = worst.max(distance);
    }
    println!("{values} values from 0 to 12.5 in steps of 2^-20: {differ} differ, the worst by {worst} f32 step(s)");
}
