//! Stand-in for `serde`: the two derives, which make nothing. No trait is needed, since nothing
//! is read or written.

pub use serde_derive::{Deserialize, Serialize};
