//! The refusals in include/object_mesh.h and in the wrapper have the same numbers and texts.

use object_mesh::Refusal;

const HEADER: &str = include_str!("../../../include/object_mesh.h");

/// The name and the number on a line of the header's enum of refusals.
fn constant(line: &str) -> Option<(&str, u32)> {
    let (name, number) = line.trim().strip_suffix(',')?.split_once(" = ")?;
    name.starts_with("OBJECT_MESH_REFUSED_").then(|| (name, number.parse().unwrap()))
}

/// The label and the text on a line of the header's `object_mesh_refusal_text`.
fn labelled(line: &str) -> Option<(&str, &str)> {
    let (label, text) = line.trim().strip_suffix("\";")?.split_once(": return \"")?;
    Some((label.trim_start_matches("case "), text))
}

fn text(number: u32) -> &'static str {
    Refusal { number, object: 0 }.text()
}

#[test]
fn texts_are_those_of_the_header() {
    let numbers: Vec<_> = HEADER.lines().filter_map(constant).collect();
    let mut texts: Vec<_> = HEADER.lines().filter_map(labelled).collect();
    let unknown = texts.pop().unwrap();
    assert_eq!(numbers.len(), texts.len());
    for (expected, ((name, number), (label, english))) in numbers.iter().zip(texts).enumerate() {
        assert_eq!((*number as usize, *name), (expected, label));
        assert_eq!(text(*number), english);
    }
    let first_unknown = numbers.len() as u32;
    assert_eq!(("default", text(first_unknown)), unknown);
    assert_eq!(("default", text(u32::MAX)), unknown);
}
