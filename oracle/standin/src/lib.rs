//! The second oracle: the Rust of ../korri, with the items that document 01 calls missing replaced by
//! stand-ins written from it (../items, put in place by ../build.rs).
pub mod marks;

include!(concat!(env!("OUT_DIR"), "/modules.rs"));
