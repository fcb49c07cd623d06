//! The kernels in plain, safe Rust, as one would write them without proofs. Each is kept out of line, as the library's are.

mod frames;
mod parities;
mod pointers;
mod stores;
mod streams;

pub use frames::{copy_payloads, read_sections, write_sections};
pub use parities::{bip_section, bip8, scramble};
pub use pointers::pointers;
pub use stores::two_copies;
pub use streams::chunks;
