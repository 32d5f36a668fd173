//! The picture of the layers in docs/ARCHITECTURE.md: docs/draw-layers draws it from crates.txt and docs/layers.txt, and says what is
//! wrong with these two.

use std::path::{Path, PathBuf};
use std::process::{Command, Output};

fn root() -> PathBuf {
    Path::new(env!("CARGO_MANIFEST_DIR")).join("..")
}

fn draw(files: &[&Path]) -> Output {
    let mut command = Command::new(root().join("docs/draw-layers"));
    command.args(files).output().expect("docs/draw-layers runs")
}

#[test]
fn each_crate_has_one_layer_no_arrow_goes_up_and_the_picture_is_up_to_date() {
    let drawn = draw(&[]);
    let said = String::from_utf8_lossy(&drawn.stderr);
    assert!(drawn.status.success() && said.is_empty(), "{said}");
    let kept = std::fs::read(root().join("docs/layers.svg")).unwrap();
    assert!(
        drawn.stdout == kept,
        "docs/layers.svg is out of date: docs/draw-layers >docs/layers.svg"
    );
}

const LAYERS: &str = "\
# three layers
low: what is below
    one
middle: what is between
    two three
high: what is above
    four
";
const CRATES: &str = "\
# NAME: what it stands on
one:
two: one
three: one two io
four: three # and no more
";

/// What docs/draw-layers answers of these two texts: the picture, or what it says.
fn drawn(test: &str, crates: &str, layers: &str) -> Result<String, String> {
    let folder = std::env::temp_dir().join(format!("layers-{}-{test}", std::process::id()));
    std::fs::create_dir_all(&folder).unwrap();
    let files = [folder.join("crates.txt"), folder.join("layers.txt")];
    std::fs::write(&files[0], crates).unwrap();
    std::fs::write(&files[1], layers).unwrap();
    let out = draw(&[&files[0], &files[1]]);
    std::fs::remove_dir_all(&folder).unwrap();
    let text = |bytes: &[u8]| String::from_utf8(bytes.to_vec()).unwrap();
    match out.status.code() {
        Some(0) => Ok(text(&out.stdout)),
        Some(1) => Err(text(&out.stderr)),
        other => panic!("status {other:?}: {}", text(&out.stderr)),
    }
}

#[test]
fn a_picture_has_every_layer_and_the_arrows_between_them() {
    let picture = drawn("good", CRATES, LAYERS).unwrap();
    for text in ["low", "middle", "high", "one", "two three", "four"] {
        assert!(picture.contains(&format!(">{text}</text>")), "{text}");
    }
    assert_eq!(picture.matches("class=\"arrow\"").count(), 2);
    // What stands on a layer through another one has no arrow of its own.
    let more = CRATES.replace("four: three", "four: three one");
    let picture = drawn("through", &more, LAYERS).unwrap();
    assert_eq!(picture.matches("class=\"arrow\"").count(), 2);
    // Past a layer between, an arrow is drawn in two pieces.
    let past = CRATES.replace("four: three", "four: one");
    let picture = drawn("past", &past, LAYERS).unwrap();
    assert_eq!(picture.matches("class=\"arrow\"").count(), 2);
}

#[test]
fn what_is_wrong_is_said_of_each_crate() {
    let five = format!("{CRATES}five: one\n");
    let said = drawn("none", &five, LAYERS).unwrap_err();
    assert!(
        said.starts_with("draw-layers: crate five has no layer: "),
        "{said}"
    );

    let twice = LAYERS.replace("two three", "two three one");
    let said = drawn("twice", CRATES, &twice).unwrap_err();
    assert!(
        said.contains("crate one stands in two layers: low, middle"),
        "{said}"
    );

    let unknown = LAYERS.replace("four", "four five");
    let said = drawn("unknown", CRATES, &unknown).unwrap_err();
    assert!(
        said.contains("layer high has five, which is no crate of "),
        "{said}"
    );

    let up = CRATES.replace("two: one", "two: one four");
    let said = drawn("up", &up, LAYERS).unwrap_err();
    let line = "draw-layers: crate two (middle) needs four of a higher layer (high)\n";
    assert_eq!(said, line);
}
