//! Scenes of an exact length.

use reference::long::{walls, MOST_BYTES};
use reference::read_scene;

#[test]
fn up_to_the_limit_they_are_accepted() {
    for length in [2_004, 2_100, 14_305, 100_000, MOST_BYTES - 1, MOST_BYTES] {
        let scene = walls(length, 1);
        assert_eq!(scene.len(), length);
        assert!(read_scene(&scene).is_ok(), "{length} bytes");
    }
}

#[test]
fn past_the_limit_they_are_refused() {
    for length in MOST_BYTES + 1..MOST_BYTES + 5 {
        assert_eq!(read_scene(&walls(length, 1)), Err((1, 0)));
    }
}
