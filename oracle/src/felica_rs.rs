//! The command parser of felica-rs, byte for byte, and what it refers to elsewhere in its crate.
include!(concat!(env!("OUT_DIR"), "/felica_rs.rs"));

pub mod driver {
    pub mod errors {
        #[derive(Debug)]
        pub enum DriverError {}
    }
}

pub mod clf {
    pub mod errors {
        #[derive(Debug)]
        pub struct UnsupportedTargetError;
    }
}
