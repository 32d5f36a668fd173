//! The proved library and the second implementation of the rules (`reference`), compared operation by operation on
//! generated files. The test `agree` runs a few thousand cases, the program `soak` as many as asked for.
#![forbid(unsafe_code)]

mod address_table;
mod compare;
mod every;
mod images;
mod lent;
mod lines;
mod lister;
mod objects;
mod places;
mod read;
mod records;
mod rewrites;
mod run;
mod salvages;
mod tables;

pub use compare::{compare, Agreed, Difference};
pub use every::every;
pub use run::{Failure, Run};
