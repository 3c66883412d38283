//! Replacing stops where a pattern is not found as often as expected.

#[path = "../build/text.rs"]
mod text;

use text::{item, replace, replace_all, without_head, without_item, Edit};

const SOURCE: &str =
    "//! Head.\n\nuse a;\n\n/// One.\n#[b]\nfn one() {\n    x\n}\n\nfn two() {\n    x\n}\n";

fn edit(times: usize) -> Edit {
    Edit {
        times,
        old: "x",
        new: "y",
    }
}

#[test]
fn replaces() {
    assert_eq!(replace("f", "x x", &edit(2)), "y y");
    assert_eq!(replace_all("f", "z", &[edit(0)]), "z");
}

#[test]
#[should_panic(expected = "found 2 times, expected 1")]
fn once_too_often() {
    replace("f", "x x", &edit(1));
}

#[test]
#[should_panic(expected = "found 0 times, expected 1")]
fn not_there() {
    replace("f", "z", &edit(1));
}

#[test]
fn cuts() {
    assert_eq!(
        item("f", SOURCE, "fn one("),
        "/// One.\n#[b]\nfn one() {\n    x\n}\n"
    );
    assert_eq!(item("f", SOURCE, "use a;"), "use a;\n");
    let rest = without_item("f", SOURCE, "fn one(");
    assert_eq!(without_head(&rest), "\nuse a;\n\n\nfn two() {\n    x\n}\n");
}

#[test]
#[should_panic(expected = "0 lines begin with")]
fn no_item() {
    item("f", SOURCE, "fn three(");
}
