//! What the benchmarks share: here and in the table that `bench/run` prints.
#![allow(dead_code)] // no benchmark uses all of it

#[path = "../../tests/made/mod.rs"]
pub mod made;
pub mod orders;
pub mod plain;
pub mod records;
pub mod relocate;
pub mod turns;
