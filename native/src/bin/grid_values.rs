//! Writes the answers that the crate `grid_values` is held against. `Grid::new`, `index`, `trilinear` and `sample` are the Rust's, from poisson.rs, but that the
//! sum starts from -0.0 whatever library this is built with. The nodes' values and the places are made by the rule of crates/grid_values/src/main.rt.
//! usage: cargo run --release --bin grid_values > ../crates/grid_values/stdout        (in native/)

// ---- threecrate's grid

struct Grid {
    n: usize,
    origin: [f64; 3],
    h: f64,
}

impl Grid {
    fn new(origin: [f64; 3], size: f64, depth: u32) -> Self {
        let n = 1usize << depth;
        Self { n, origin, h: size / (n - 1) as f64 }
    }

    fn index(&self, i: usize, j: usize, k: usize) -> usize {
        (i * self.n + j) * self.n + k
    }

    fn trilinear(&self, p: [f64; 3]) -> [(usize, f64); 8] {
        let mut base = [0usize; 3];
        let mut frac = [0f64; 3];
        for axis in 0..3 {
            let u = ((p[axis] - self.origin[axis]) / self.h).clamp(0.0, (self.n - 1) as f64);
            let cell = (u.floor() as usize).min(self.n - 2);
            base[axis] = cell;
            frac[axis] = u - cell as f64;
        }
        let mut out = [(0usize, 0f64); 8];
        for (c, slot) in out.iter_mut().enumerate() {
            let (di, dj, dk) = (c >> 2 & 1, c >> 1 & 1, c & 1);
            let w = (if di == 1 { frac[0] } else { 1.0 - frac[0] })
                * (if dj == 1 { frac[1] } else { 1.0 - frac[1] })
                * (if dk == 1 { frac[2] } else { 1.0 - frac[2] });
            *slot = (self.index(base[0] + di, base[1] + dj, base[2] + dk), w);
        }
        out
    }

    fn sample(&self, values: &[f32], p: [f64; 3]) -> f64 {
        self.trilinear(p).iter().map(|&(index, w)| w * values[index] as f64).fold(-0.0, |sum, x| sum + x)
    }
}

// ---- the rule

fn plain(m: usize) -> f32 {
    (m as f32 - 48.0) / 8.0
}

fn wild(m: usize) -> f32 {
    match m {
        0..10 => -0.0,
        10..20 => f32::MAX,
        20..30 => -f32::MAX,
        30..40 => f32::from_bits(1),
        50 => f32::INFINITY,
        51 => f32::NEG_INFINITY,
        52 => f32::NAN,
        _ => plain(m),
    }
}

/// The coordinates along an axis of a cube 2.5 wide from o on.
fn coordinates(o: f64) -> [f64; 14] {
    [
        o + 0.0,
        o + 2.5,
        o + 1.25,
        o + 2.5 / 7.0 * 3.0,
        o + 2.5 / 3.0,
        o + 2.4375,
        o + -1.0,
        o + 3.5,
        -0.0,
        f64::from_bits(1),
        f64::MAX,
        f64::INFINITY,
        f64::NEG_INFINITY,
        f64::NAN,
    ]
}

fn main() {
    for depth in 1..=3 {
        let grid = Grid::new([-1.0, 0.5, 0.1], 2.5, depth);
        let [x, y, z] = grid.origin.map(coordinates);
        let rules: [(&str, fn(usize) -> f32); 3] = [("plain", plain), ("minus zero", |_| -0.0), ("wild", wild)];
        for (name, rule) in rules {
            println!("{} nodes, {name}", grid.n);
            let values: Vec<f32> = (0..grid.n.pow(3)).map(|q| rule((37 * q + 11) % 101)).collect();
            for b in 0..14 {
                for a in 0..14 {
                    let v = grid.sample(&values, [x[a], y[b], z[(3 * a + b) % 14]]);
                    print!(" {:016x}", if v.is_nan() { 0x7FF8_0000_0000_0000 } else { v.to_bits() });
                }
                println!();
            }
        }
    }
}
