//! Compares the library with the oracle on generated calls: the answer, every result element, every scratch element and the
//! field, bit by bit. Slices are lent full of rubbish, with a fence on either side.
pub mod laws;
pub mod lending;
pub mod tally;
