//! Stands in for felica_standard/mod.rs: the modules of the command parser, and no others.
mod command;
mod constants;
mod error;
mod redact;
mod secure;
mod types;

pub use command::*;
pub use constants::*;
pub use error::*;
pub use types::*;
