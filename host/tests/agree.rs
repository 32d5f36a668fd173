//! The proved library and the second implementation answer alike, buffers included, on generated files: a short run
//! that reaches every refusal. `tests/soak` runs longer ones; docs/TESTING.md says what is compared.

use agree::Run;

const CASES: u64 = 2_500;

#[test]
fn answers_agree_and_every_refusal_is_reached() {
    let mut run = Run::default();
    for seed in 0..CASES {
        if let Err(failure) = run.seed(seed) {
            panic!("DIFFERENCE at {failure}");
        }
    }
    println!("{}\n{}", run.table.text(), run.summary());
    assert_eq!(
        run.table.missing(),
        Vec::<String>::new(),
        "refusals never reached"
    );
    assert_eq!(
        run.table.strange(),
        Vec::<String>::new(),
        "refusals that the rules do not have"
    );
    assert_eq!(
        run.unused_damages(),
        Vec::<&str>::new(),
        "damages never made"
    );
    assert!(
        run.chained_lists > 100 && run.broken_moves > 100,
        "{}",
        run.summary()
    );
}
