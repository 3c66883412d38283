//! The answers stored in a file, against those of this build.

use reference::answer::{answer, scene_line};

#[test]
#[ignore = "OBJECT_MESH_ANSWERS must name a file of scenes with answers"]
fn stored_answers() {
    let path = std::env::var("OBJECT_MESH_ANSWERS").expect("OBJECT_MESH_ANSWERS names a file");
    let text = std::fs::read_to_string(path).expect("the file can be read");
    let scenes = text.lines().filter(|line| line.starts_with("scene "));
    let expected: String = scenes
        .map(|line| {
            let (family, bytes) = scene_line(line).expect("a scene line");
            answer(&family, &bytes)
        })
        .collect();
    assert!(!expected.is_empty());
    for (n, (found, expected)) in text.lines().zip(expected.lines()).enumerate() {
        assert_eq!(found, expected, "line {}", n + 1);
    }
    assert_eq!(text, expected);
}
