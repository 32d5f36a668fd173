//! Comparison with recorded answers and real files. The paths come from the
//! environment, so these run only when asked for:
//!
//! REFERENCE_VECTORS=base.jsonl REFERENCE_CORPUS=corpus cargo test -- --ignored

use std::process::Command;

fn run(program: &str, variable: &str) {
    let path = std::env::var(variable).unwrap_or_else(|_| panic!("{variable} names no path"));
    let output = Command::new(program).arg(path).output().expect("it runs");
    print!("{}", String::from_utf8_lossy(&output.stdout));
    assert!(
        output.status.success(),
        "{}",
        String::from_utf8_lossy(&output.stderr)
    );
}

#[test]
#[ignore]
fn vectors() {
    run(env!("CARGO_BIN_EXE_check_vectors"), "REFERENCE_VECTORS");
}

#[test]
#[ignore]
fn corpus() {
    run(env!("CARGO_BIN_EXE_check_corpus"), "REFERENCE_CORPUS");
}
