//! The millimetres of a built scene (document 02, request 1).

mod common;

use common::{built, prism};
use reference::write::Writer;

#[test]
fn of_a_wall() {
    let corners = prism(&[[0.0625, -0.0625], [0.1875, 2.0]], 3.0);
    let (_, built) = built(&Writer::new().outline(1, false, &corners, &[]).finish());
    let [first, second] = [[63, -63], [188, 2000]];
    let expected = [(first, 0), (second, 0), (second, 3000), (first, 3000)];
    let expected = expected.into_iter().flat_map(|([x, y], z)| [x, y, z]);
    assert_eq!(built.millimetres, expected.collect::<Vec<i64>>());
}

#[test]
fn of_no_vertices() {
    assert!(built(&[0; 4]).1.millimetres.is_empty());
}
