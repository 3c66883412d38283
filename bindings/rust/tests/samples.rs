//! The samples of the repository, through the wrapper.

use object_mesh::{build, measure, validate, Account, Refusal, Verdict};

const BOX: &[u8] = include_bytes!("../../../samples/box.scene");
const STREET: &[u8] = include_bytes!("../../../samples/street.scene");

#[test]
fn a_box_keeps_twelve_triangles() {
    let built = build(BOX).unwrap();
    assert_eq!(built.vertices.len(), 24);
    assert_eq!(built.indices.len(), 36);
    assert_eq!(built.spans.len(), 1);
    assert_eq!((built.spans[0].id, built.spans[0].vertices.end), (7, 24));
    let twelve = Account {
        offered: 12,
        kept: 12,
        thin: 0,
        entries: 0,
    };
    assert_eq!(built.account, [twelve]);
}

#[test]
fn accounts_add_up_and_spans_lie_end_to_end() {
    let built = build(STREET).unwrap();
    assert!(built.account.iter().all(|a| a.offered == a.kept + a.thin));
    let mut ends = (0, 0);
    for span in &built.spans {
        assert_eq!((span.vertices.start, span.indices.start), ends);
        ends = (span.vertices.end, span.indices.end);
    }
    assert_eq!(ends, (built.vertices.len() as u32, built.indices.len() as u32));
}

#[test]
fn a_built_mesh_is_judged() {
    assert_eq!(build(&[0; 4]).unwrap().validate(), Verdict::Empty);
    let mut built = build(STREET).unwrap();
    assert_eq!(built.validate(), Verdict::Ok);
    built.indices[4] = 152;
    let expected = Verdict::IndexOutOfRange {
        triangle: 1,
        index: 152,
        vertices: 152,
    };
    assert_eq!(built.validate(), expected);
}

#[test]
fn refusals_and_verdicts() {
    let refused = |number, object| Err(Refusal { number, object });
    assert_eq!(measure(&[]), refused(1, 0));
    assert_eq!(measure(&STREET[1..]), refused(5, 0));
    let error: Box<dyn std::error::Error> = measure(&STREET[1..]).unwrap_err().into();
    assert_eq!(error.to_string(), "refused 5, object 0: a record's kind is not known");
    assert!(build(&[0; 4]).unwrap().indices.is_empty());
    assert_eq!(validate(&[], &[]), Ok(Verdict::Empty));
    assert_eq!(validate(&[0.0; 4], &[0]).unwrap_err().number, 11);
    assert_eq!(validate(&[f32::NAN; 3], &[0]), Ok(Verdict::NonFiniteVertex(0)));
    assert_eq!(validate(&[0.0; 9], &[0, 1, 1]), Ok(Verdict::DegenerateTriangle(0)));
}
