//! The settings of a call.
use crate::exported;

/// Whether faces far from every point are dropped.
#[derive(Debug, Clone, Copy, PartialEq)]
pub enum Trimming {
    /// Every face is kept: the mesh is closed.
    Off,
    /// A face is kept when its centre is at most this far from some usable point. The mesh is open then.
    Within(f32),
}

/// How a scan is closed. `Settings::default()` asks the library; there is no second list here.
#[derive(Debug, Clone, Copy, PartialEq)]
pub struct Settings {
    /// The grid has 2^depth nodes per side, from 3 to 8. One more costs about fifteen times the time and eight times the memory.
    pub depth: u32,
    /// How far each normal is spread, in point spacings. Above zero; larger fills wider holes and gives a smoother surface.
    pub smoothing: f32,
    /// Added to the level, which is the field's mean at the points. Above zero shrinks the solid, below zero grows it.
    pub iso_offset: f32,
    /// Whether faces far from every point are dropped.
    pub trimming: Trimming,
    /// The most steps the solver takes on each level of the grid.
    pub iterations: usize,
    /// The solver stops when what is left is at most this fraction of the right side.
    pub tolerance: f64,
}

impl Default for Settings {
    fn default() -> Self {
        let (mut words, mut values, mut tolerance) = ([0u64; 8], [0f32; 8], [0f64; 1]);
        // The library writes eight words, eight values and one tolerance, which are these.
        unsafe { exported::poisson_defaults(words.as_mut_ptr(), values.as_mut_ptr(), tolerance.as_mut_ptr()) };
        Settings {
            depth: words[0] as u32,
            smoothing: values[0],
            iso_offset: values[1],
            trimming: if words[1] == 0 { Trimming::Off } else { Trimming::Within(values[2]) },
            iterations: words[2] as usize,
            tolerance: tolerance[0],
        }
    }
}

impl Settings {
    /// The trimming as it crosses the boundary: a flag and a distance.
    pub(crate) fn trimming_numbers(&self) -> (u32, f32) {
        match self.trimming {
            Trimming::Off => (0, 0.0),
            Trimming::Within(distance) => (1, distance),
        }
    }
}
