//! Every function of `arith`, by bits, against Rust's own: a NaN that comes out is 7FC00000 or 7FF8000000000000, whatever NaN went in.
use native::*;

/// The numbers that every test runs over.
fn numbers(count: usize) -> Vec<f64> {
    let mut patterns = Patterns::new(0x9E37_79B9_7F4A_7C15);
    let mut all: Vec<f64> = NANS64.iter().chain(&ENDS64).map(|&b| f64::from_bits(b)).collect();
    all.extend((0..count).map(|_| patterns.any()));
    all.extend((0..count).map(|_| patterns.near_single()));
    all.extend((0..count).map(|_| (patterns.bits() % 2000) as f64 / 8.0 - 125.0));
    all
}

fn singles(count: usize) -> Vec<f32> {
    let mut patterns = Patterns::new(0xD1B5_4A32_D192_ED03);
    let mut all: Vec<f32> = NANS32.iter().map(|&b| f32::from_bits(b)).collect();
    all.extend((0..count).map(|_| f32::from_bits(patterns.bits() as u32)));
    all.extend(numbers(1000).iter().map(|&x| x as f32));
    all
}

fn each64(name: &str, ours: fn(f64) -> f64, theirs: fn(f64) -> f64) {
    for x in numbers(300_000) {
        let (a, b) = (ours(x).to_bits(), stored64(theirs(x)));
        assert_eq!(a, b, "{name} of {:016X} is {a:016X} and should be {b:016X}", x.to_bits());
    }
}

fn each32(name: &str, ours: fn(f32) -> f32, theirs: fn(f32) -> f32) {
    for x in singles(300_000) {
        let (a, b) = (ours(x).to_bits(), stored32(theirs(x)));
        assert_eq!(a, b, "{name} of {:08X} is {a:08X} and should be {b:08X}", x.to_bits());
    }
}

fn narrowing(name: &str, ours: fn(f64) -> f32, theirs: fn(f64) -> f32) {
    for x in numbers(300_000) {
        let (a, b) = (ours(x).to_bits(), stored32(theirs(x)));
        assert_eq!(a, b, "{name} of {:016X} is {a:08X} and should be {b:08X}", x.to_bits());
    }
}

/// Document 01's exponential of -x, written once more.
fn exp_rule(x: f64) -> f32 {
    let u = x / 64.0;
    let mut s = 1.0;
    for m in (1..=8).rev() {
        s = 1.0 - (u * s) / m as f64;
    }
    for _ in 0..6 {
        s *= s;
    }
    s as f32
}

#[test]
fn roots() {
    each64("root64", root64, f64::sqrt);
    each32("root32", root32, f32::sqrt);
}

#[test]
fn narrow_and_widen() {
    narrowing("narrow", narrow, |x| x as f32);
    for x in singles(300_000) {
        assert_eq!(widen(x).to_bits(), stored64(x as f64), "widen of {:08X}", x.to_bits());
    }
}

#[test]
fn floor_ceiling_sign() {
    each64("floor", floor, f64::floor);
    each64("ceiling", ceiling, f64::ceil);
    each64("sign", sign, f64::signum);
    each64("canonical64", canonical64, |x| x);
    each32("canonical32", canonical32, |x| x);
}

#[test]
fn clamps() {
    each64("clamp64", |x| clamp64(x, 0.0, 7.0), |x| x.clamp(0.0, 7.0));
    each64("clamp64", |x| clamp64(x, -0.0, 1.0), |x| x.clamp(-0.0, 1.0));
    each32("clamp32", |x| clamp32(x, 0.0, 1.0), |x| x.clamp(0.0, 1.0));
}

#[test]
fn casts() {
    for x in numbers(300_000) {
        assert_eq!(to_whole(x), x as u64, "to_whole of {:016X}", x.to_bits());
    }
}

#[test]
fn exponential() {
    narrowing("exp_neg", exp_neg, exp_rule);
}

/// Of two equal ones, zeros too, the first stays; a NaN gives the other.
#[test]
fn least_and_largest() {
    let all = numbers(400);
    for &x in &all {
        for &y in all.iter().take(60) {
            let first = |keep: bool| if x.is_nan() || (!keep && !y.is_nan()) { y } else { x };
            assert_eq!(least(x, y).to_bits(), stored64(first(!(y < x))), "least of {:016X} and {:016X}", x.to_bits(), y.to_bits());
            assert_eq!(largest(x, y).to_bits(), stored64(first(!(x < y))), "largest of {:016X} and {:016X}", x.to_bits(), y.to_bits());
        }
    }
}
