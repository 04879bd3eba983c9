//! Stand-in: the two marker traits that point.rs implements.
/// # Safety
/// Marks a type for which all zero bits are a value.
pub unsafe trait Zeroable {}
/// # Safety
/// Marks a type for which every bit pattern is a value.
pub unsafe trait Pod {}
