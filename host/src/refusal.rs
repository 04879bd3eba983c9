//! The ten refusals.
use std::fmt;

/// Why a call was refused. The numbers are those of document 01.
#[derive(Debug, Clone, Copy, PartialEq, Eq, Hash)]
#[repr(u32)]
pub enum Refusal {
    /// No points.
    NoPoints = 1,
    /// Depth below 3 or above 8.
    Depth = 2,
    /// Smoothing NaN, zero or negative.
    Smoothing = 3,
    /// Fewer than 10 usable points.
    TooFewUsable = 4,
    /// The largest extent is zero.
    OneSpot = 5,
    /// No face, before or after trimming.
    NoFace = 6,
    /// The points are not six numbers each, or over 1,048,576.
    PointSlice = 7,
    /// A scratch slice is shorter than stated.
    ScratchShort = 8,
    /// The vertex slice is too short for the untrimmed mesh.
    VerticesShort = 9,
    /// The face slice is too short for the untrimmed mesh.
    FacesShort = 10,
}

impl Refusal {
    /// All ten, in the order of their numbers.
    pub const ALL: [Refusal; 10] = [
        Refusal::NoPoints,
        Refusal::Depth,
        Refusal::Smoothing,
        Refusal::TooFewUsable,
        Refusal::OneSpot,
        Refusal::NoFace,
        Refusal::PointSlice,
        Refusal::ScratchShort,
        Refusal::VerticesShort,
        Refusal::FacesShort,
    ];

    /// The refusal with this number; the library gives no other.
    pub fn of(number: u32) -> Option<Refusal> {
        Self::ALL.into_iter().find(|r| r.number() == number)
    }

    /// Document 01's number, 1 to 10.
    pub fn number(self) -> u32 {
        self as u32
    }

    /// What to tell the person who scanned the part.
    pub fn sentence(self) -> &'static str {
        match self {
            Refusal::NoPoints => "the scan holds no points",
            Refusal::Depth => "the depth must be 3, 4, 5, 6, 7 or 8",
            Refusal::Smoothing => "the smoothing must be a number above zero",
            Refusal::TooFewUsable => {
                "fewer than ten points can be used; a point needs a finite position and a normal that is finite and not zero"
            }
            Refusal::OneSpot => "all usable points lie in one spot, so there is nothing to close",
            Refusal::NoFace => {
                "no surface was found: the offset is too large, trimming took every face away, or the solver made no step"
            }
            Refusal::PointSlice => "the points are not six numbers each, or there are more than 1,048,576 of them",
            Refusal::ScratchShort => "the memory lent for the work is smaller than the depth and the points need",
            Refusal::VerticesShort => "the mesh has more vertices than there was room for",
            Refusal::FacesShort => "the mesh has more faces than there was room for",
        }
    }
}

impl fmt::Display for Refusal {
    fn fmt(&self, f: &mut fmt::Formatter) -> fmt::Result {
        write!(f, "refused {}: {}", self.number(), self.sentence())
    }
}

impl std::error::Error for Refusal {}
