//! The carried-over files under the module paths that they use. Their own root, `src/lib.rs`, also
//! declares modules that are not carried over, so it is not the root here.
#![no_std]

#[path = "../src/core.rs"]
pub mod core;
#[path = "../src/error.rs"]
pub mod error;

#[path = "../src/infra"]
pub mod infra {
    pub mod codec {
        pub mod bits;
        pub mod engine;
        pub mod traits;
    }
}
