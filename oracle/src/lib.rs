//! Holds the library against the Rust, call by call: see oracle/run.

pub mod calls;
pub mod expected;
pub mod face;
pub mod grow;
pub mod lent;
pub mod library;
pub mod listing;
pub mod reading;
pub mod rng;
pub mod run;
pub mod sample;
pub mod shapes;
pub mod shrink;
pub mod small;
pub mod spoil;
pub mod story;
pub mod tables;
pub mod wire;
