//! The exported functions of the crate `arith_export`, with safe names, and numbers to try them on.
//! Nothing checks these declarations against the Rattle source: the tests do, by calling every one of them.

pub mod brute;
pub mod clock;
pub mod extract;
pub mod points;
pub mod solver;

/// Marching cubes as published: what `extract_export` is compared with.
#[allow(dead_code)]
#[path = "../../oracle/seed/threecrate-reconstruction/src/marching_cubes.rs"]
mod marching_cubes;
#[path = "../../oracle/seed/threecrate-reconstruction/src/parallel.rs"]
mod parallel;

mod exported {
    extern "C" {
        pub fn hoardmagpie_root32(x: f32) -> f32;
        pub fn hoardmagpie_root64(x: f64) -> f64;
        pub fn hoardmagpie_narrow(x: f64) -> f32;
        pub fn hoardmagpie_widen(x: f32) -> f64;
        pub fn hoardmagpie_floor(x: f64) -> f64;
        pub fn hoardmagpie_ceiling(x: f64) -> f64;
        pub fn hoardmagpie_sign(x: f64) -> f64;
        pub fn hoardmagpie_exp_neg(x: f64) -> f32;
        pub fn hoardmagpie_to_whole(x: f64) -> u64;
        pub fn hoardmagpie_canonical32(x: f32) -> f32;
        pub fn hoardmagpie_canonical64(x: f64) -> f64;
        pub fn hoardmagpie_clamp32(x: f32, lo: f32, hi: f32) -> f32;
        pub fn hoardmagpie_clamp64(x: f64, lo: f64, hi: f64) -> f64;
        pub fn hoardmagpie_least(x: f64, y: f64) -> f64;
        pub fn hoardmagpie_largest(x: f64, y: f64) -> f64;
    }
}

macro_rules! safe {
    ($($name:ident = $from:ident ( $($x:ident : $t:ty),* ) -> $r:ty;)*) => {
        $(pub fn $name($($x: $t),*) -> $r {
            // The exported function takes plain numbers, demands nothing and touches no memory of ours.
            unsafe { exported::$from($($x),*) }
        })*
    };
}

safe! {
    root32 = hoardmagpie_root32(x: f32) -> f32;
    root64 = hoardmagpie_root64(x: f64) -> f64;
    narrow = hoardmagpie_narrow(x: f64) -> f32;
    widen = hoardmagpie_widen(x: f32) -> f64;
    floor = hoardmagpie_floor(x: f64) -> f64;
    ceiling = hoardmagpie_ceiling(x: f64) -> f64;
    sign = hoardmagpie_sign(x: f64) -> f64;
    exp_neg = hoardmagpie_exp_neg(x: f64) -> f32;
    to_whole = hoardmagpie_to_whole(x: f64) -> u64;
    canonical32 = hoardmagpie_canonical32(x: f32) -> f32;
    canonical64 = hoardmagpie_canonical64(x: f64) -> f64;
    clamp32 = hoardmagpie_clamp32(x: f32, lo: f32, hi: f32) -> f32;
    clamp64 = hoardmagpie_clamp64(x: f64, lo: f64, hi: f64) -> f64;
    least = hoardmagpie_least(x: f64, y: f64) -> f64;
    largest = hoardmagpie_largest(x: f64, y: f64) -> f64;
}

/// A small generator of patterns (xorshift), the same on every run.
pub struct Patterns(u64);

impl Patterns {
    pub fn new(seed: u64) -> Self {
        Patterns(seed | 1)
    }

    pub fn bits(&mut self) -> u64 {
        self.0 ^= self.0 << 13;
        self.0 ^= self.0 >> 7;
        self.0 ^= self.0 << 17;
        self.0
    }

    /// Any f64: every exponent is as likely as any other.
    pub fn any(&mut self) -> f64 {
        f64::from_bits(self.bits())
    }

    /// An f64 where an f32 has its values, its subnormals and its ends: ties and their neighbours among them.
    pub fn near_single(&mut self) -> f64 {
        let b = self.bits();
        let exponent = 1023 - 152 + b % 284;
        let kept = self.bits() & 0x000F_FFFF_E000_0000;
        let below = [0, 1, 0x0FFF_FFFF, 0x1000_0000, 0x1000_0001, 0x1FFF_FFFF][(b >> 32) as usize % 6];
        f64::from_bits((b & (1 << 63)) | (exponent << 52) | kept | below)
    }
}

/// NaNs of both signs, quiet and signalling, with payloads.
pub const NANS64: [u64; 8] = [
    0x7FF8_0000_0000_0000,
    0xFFF8_0000_0000_0000,
    0x7FF0_0000_0000_0001,
    0xFFF0_0000_0000_0001,
    0x7FF8_0000_DEAD_BEEF,
    0xFFFF_FFFF_FFFF_FFFF,
    0x7FFF_FFFF_FFFF_FFFF,
    0x7FF4_0000_0000_0000,
];

pub const NANS32: [u32; 8] =
    [0x7FC0_0000, 0xFFC0_0000, 0x7F80_0001, 0xFF80_0001, 0x7FC0_BEEF, 0xFFFF_FFFF, 0x7FFF_FFFF, 0x7FA0_0000];

/// Zeros, subnormals, ones, ends of the formats, infinities.
pub const ENDS64: [u64; 16] = [
    0,
    1 << 63,
    1,
    (1 << 63) | 1,
    0x000F_FFFF_FFFF_FFFF,
    0x0010_0000_0000_0000,
    0x3FF0_0000_0000_0000,
    0xBFF0_0000_0000_0000,
    0x3FE0_0000_0000_0000,
    0xBFE0_0000_0000_0000,
    0x47EF_FFFF_EFFF_FFFF,
    0x47EF_FFFF_F000_0000,
    0x7FEF_FFFF_FFFF_FFFF,
    0xFFEF_FFFF_FFFF_FFFF,
    0x7FF0_0000_0000_0000,
    0xFFF0_0000_0000_0000,
];

/// The pattern that document 01 stores.
pub fn stored64(x: f64) -> u64 {
    if x.is_nan() {
        0x7FF8_0000_0000_0000
    } else {
        x.to_bits()
    }
}

pub fn stored32(x: f32) -> u32 {
    if x.is_nan() {
        0x7FC0_0000
    } else {
        x.to_bits()
    }
}
