//! Makes the patched oracle's text from the published poisson.rs; `scripts/oracle-differences` shows in what the two differ.
include!("substitutions.rs");

/// 01: "build the oracle with one that does". Sums of nothing show where this Rust library's sums start.
fn refuse_a_library_whose_sums_start_from_plus_zero() {
    let narrow = std::iter::empty::<f32>().sum::<f32>();
    let wide = std::iter::empty::<f64>().sum::<f64>();
    assert!(
        narrow.to_bits() == 1 << 31 && wide.to_bits() == 1 << 63,
        "the oracle needs a Rust library whose empty sum is -0.0, as the current one's is"
    );
}

fn main() {
    refuse_a_library_whose_sums_start_from_plus_zero();
    for file in [PUBLISHED, "substitutions.rs", "build.rs"] {
        println!("cargo:rerun-if-changed={file}");
    }
    leave("poisson.rs", patched(&[EXPONENTIAL, DOT_ORDER, SEARCH, AT_MOST]));
}
