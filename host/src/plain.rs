//! The compiler, the machine, roles and their rounds, the bundle, the listing and its reader once more in plain Rust,
//! written from documents 01 and 02 alone.
//! Tests hold the archive to it, and the benchmark measures the archive against it.
mod bundle;
pub mod bytes;
pub mod code;
mod compiler;
mod direct;
mod machine;
pub mod patterns;
mod reading;
mod role;
mod round;
mod stores;
pub mod terms;

pub use bundle::listing;
pub use compiler::compile;
pub use direct::direct;
pub use machine::{run, run_hashed};
pub use reading::read_listing;
pub use role::compile_role;
pub use round::{round, take};

pub const ENGINE: crate::Engine = crate::Engine { compile, run };

/// The same with an index of hashes in the check of a table.
pub const HASHED: crate::Engine = crate::Engine { compile, run: run_hashed };

pub const ROLES: crate::roles::RoleEngine = crate::roles::RoleEngine { compile_role, round, take };

pub const READER: crate::reading::Reader = crate::reading::Reader { read_listing };
