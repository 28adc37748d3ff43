//! The crate `pulldown_cmark_proved`, by the name of pulldown-cmark 0.13, so that one line replaces it in all crates of a build:
//!
//! ```toml
//! [patch.crates-io]
//! pulldown-cmark = { path = "pulldown_cmark_proved-0.13.6/patch-0.13" }
//! ```
#![forbid(unsafe_code)]

pub use proved::*;
