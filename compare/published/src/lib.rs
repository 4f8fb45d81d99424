//! The published reader, writer and residue names; `build.rs` has the list of their files.
//! What those files lean on and is not at hand is in `grid`, `utils` and `shims/`.
#![allow(dead_code, unexpected_cfgs, unused_imports)]

mod grid;
mod utils {
    pub mod parallel;
}

include!(concat!(env!("OUT_DIR"), "/published.rs"));
