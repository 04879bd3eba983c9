//! Writes the answers that the crate `points_values` is held against: the same points by the same rule of whole numbers, then document 01's Points, box and
//! Spacing by brute search. It was written from document 01 and the Rust's poisson.rs, and shares no code with the port.
//! usage: cargo run --release --bin points_values > ../crates/points_values/stdout        (in native/)

#[derive(Clone, Copy, PartialEq)]
enum Stand {
    Spread,
    Doubled,
    Short,
    Wide,
    Apart,
    Minute,
    Largest,
    Equal,
}
use Stand::*;

type Vector = [f32; 3];

// ---- the rule of crates/points_values/src/rule.rt

const PRIME: u64 = (1 << 31) - 1;
const SHORTEST: u32 = 0x2B8C_BCCC;

/// Point i: its position and its normal.
fn point(stand: Stand, i: u64, spoilt: u64) -> (Vector, Vector) {
    let start = if stand == Doubled { i / 2 } else { i };
    let mut s = start + 1;
    let mut turns = [0; 8];
    for t in &mut turns {
        s = s * if s % 2 == 0 { 16807 } else { 48271 } % PRIME;
        *t = s;
    }
    let numbers = [turns[5], turns[6], turns[7]];
    let mut at = [0, 1, 2].map(|axis| coordinate(stand, i, axis, numbers[axis]));
    let [a, b, c] = numbers;
    let mut normal = [1.0 + (a % 7) as f32, -((b % 5) as f32), (c % 3) as f32];
    if stand == Short {
        normal = [0.0, f32::from_bits(SHORTEST), 0.0];
    }
    if i % 4 == 3 && i / 4 < spoilt {
        let kind = if stand == Short { 6 } else { i / 4 % 8 };
        match kind {
            0 => at[0] = f32::NAN,
            1 => at[1] = f32::INFINITY,
            2 => at[2] = f32::NEG_INFINITY,
            3 => normal = [0.0, -0.0, 0.0],
            4 => normal[1] = f32::NAN,
            5 => normal[2] = 1e20,
            6 => normal = [0.0, f32::from_bits(SHORTEST - 1), 0.0],
            _ => normal = [1e-20, 1e-20, 0.0],
        }
    }
    (at, normal)
}

fn coordinate(stand: Stand, i: u64, axis: usize, s: u64) -> f32 {
    let row = if axis == 0 { i as f32 } else { 0.0 };
    match stand {
        Spread | Doubled | Short => (s % 65536) as f32 / 256.0 - 128.0,
        Wide => row * 1.8e19,
        Apart => row * 2e19,
        Minute if s % 3 == 0 => -0.0,
        Minute => f32::from_bits((s % (1 << 23)) as u32),
        Largest if s % 2 == 0 => f32::MAX,
        Largest => -f32::MAX,
        Equal => 1.5,
    }
}

// ---- document 01

/// The root of (x·x+y·y)+z·z, in f32.
fn length(v: Vector) -> f32 {
    ((v[0] * v[0] + v[1] * v[1]) + v[2] * v[2]).sqrt()
}

/// 0 for a usable point, else the reason's number.
fn reason(at: Vector, normal: Vector) -> usize {
    if at.iter().any(|x| !x.is_finite()) {
        1
    } else if !length(normal).is_finite() {
        2
    } else if length(normal) < 1e-12 {
        3
    } else {
        0
    }
}

/// The first positive of a point's two smallest distances, itself included.
fn gap(usable: &[Vector], p: Vector) -> Option<f32> {
    let mut distances: Vec<f32> = usable.iter().map(|q| length([q[0] - p[0], q[1] - p[1], q[2] - p[2]])).collect();
    distances.sort_by(f32::total_cmp);
    distances.into_iter().take(2).find(|&d| d > 0.0)
}

fn spacing(usable: &[Vector], extent: f64) -> f64 {
    let step = (usable.len() / 1000).max(1);
    let mut gaps: Vec<f32> = usable.iter().step_by(step).filter_map(|&p| gap(usable, p)).collect();
    gaps.sort_by(f32::total_cmp);
    let middle = if gaps.is_empty() { 0.0 } else { gaps[gaps.len() / 2] as f64 };
    middle.max(extent * 1e-6)
}

// ---- a case

/// The pattern that document 01 stores.
fn hex(x: f64) -> String {
    format!(" {:016x}", if x.is_nan() { 0x7FF8_0000_0000_0000 } else { x.to_bits() })
}

fn hex3(v: [f64; 3]) -> String {
    v.map(hex).concat()
}

fn run(name: &str, stand: Stand, given: u64, spoilt: u64) {
    let points: Vec<(Vector, Vector)> = (0..given).map(|i| point(stand, i, spoilt)).collect();
    let mut reasons = [0; 4];
    for &(at, normal) in &points {
        reasons[reason(at, normal)] += 1;
    }
    let usable: Vec<Vector> = points.iter().filter(|p| reason(p.0, p.1) == 0).map(|p| p.0).collect();

    // f64::min leaves the sign of a zero open; the port keeps the first of two equal ones, and so does this.
    let mut lo = [f64::INFINITY; 3];
    let mut hi = [f64::NEG_INFINITY; 3];
    for p in &usable {
        for axis in 0..3 {
            let x = p[axis] as f64;
            lo[axis] = if x < lo[axis] { x } else { lo[axis] };
            hi[axis] = if x > hi[axis] { x } else { hi[axis] };
        }
    }
    let extent = (0..3).map(|axis| hi[axis] - lo[axis]).fold(0.0, f64::max);
    let side = extent * (1.0 + 2.0 * 0.1);
    let origin = [0, 1, 2].map(|axis| (lo[axis] + hi[axis]) / 2.0 - side / 2.0);

    println!("{name}");
    println!("  usable {}, by reason {} {} {} {}", usable.len(), reasons[0], reasons[1], reasons[2], reasons[3]);
    println!("  low{}\n  high{}", hex3(lo), hex3(hi));
    println!("  extent{}\n  side{}\n  origin{}", hex(extent), hex(side), hex3(origin));
    println!("  spacing{}", hex(spacing(&usable, extent)));
}

fn main() {
    run("none", Spread, 0, 0);
    run("9 of 12", Spread, 12, 3);
    run("10 of 13", Spread, 13, 3);
    run("999 of 1199", Spread, 1199, 200);
    run("1000 of 1200", Spread, 1200, 200);
    run("1999 of 2299", Spread, 2299, 300);
    run("2000 of 2300", Spread, 2300, 300);
    run("doubles", Doubled, 40, 3);
    run("short normals", Short, 40, 10);
    run("1.8e19 apart", Wide, 16, 0);
    run("2e19 apart", Apart, 16, 0);
    run("minus zero and subnormal", Minute, 40, 10);
    run("largest", Largest, 12, 2);
    run("all equal", Equal, 20, 5);
}
