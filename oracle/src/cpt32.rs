//! What the reference's converter needs of the crate it belongs to: the two reference modules and a start of logging.
#![allow(dead_code)]

pub mod devices {
    pub mod sgu {
        include!(env!("ORACLE_SQV4"));
    }
}
include!(env!("ORACLE_WAV"));

pub fn init_logging() {}
