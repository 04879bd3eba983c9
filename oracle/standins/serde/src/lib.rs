//! Stand-in: the two derives, which produce nothing.
pub use serde_derive::{Deserialize, Serialize};
