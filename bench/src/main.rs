//! The table without the rows against the crate `object`.
#![forbid(unsafe_code)]

fn main() {
    bench::main(None);
}
