//! Tests, a runner on real threads and benchmarks over the static library of the proved steps.
pub mod ages;
pub mod bench;
pub mod ffi;
pub mod linear;
pub mod memory;
pub mod plain;
pub mod play;
pub mod random;
pub mod report;
pub mod runner;
pub mod scripts;
pub mod stress;
pub mod svg;
pub mod table;
pub mod tso;
