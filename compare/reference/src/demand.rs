//! Demand 3 of the request, checked on one built list with exact whole
//! numbers, from the buffers, the objects and the lids' flat corners.

use crate::built::Built;
use crate::exact::{area, ring_area, Whole};
use crate::network::Object;
use crate::object::Shape;
use crate::price::offered;
use crate::record::{Lid, Notes};
use crate::rings::{replay, rings};
use crate::verdict::{validate, Judgement};

pub fn check(objects: &[Object], built: &Built) -> Result<(), String> {
    sizes(objects, built)?;
    account_and_spans(objects, built)?;
    verdict(built)?;
    logs(objects, built)
}

fn expect(holds: bool, what: impl Fn() -> String) -> Result<(), String> {
    if holds {
        Ok(())
    } else {
        Err(what())
    }
}

fn sizes(objects: &[Object], built: &Built) -> Result<(), String> {
    let whole = built.vertices.len() == built.normals.len()
        && built.vertices.len().is_multiple_of(3)
        && built.indices.len().is_multiple_of(3)
        && built.spans.len().is_multiple_of(5)
        && built.account.len() == 4 * objects.len()
        && built.log.len().is_multiple_of(4);
    expect(whole, || "a buffer holds part of a record".to_string())?;
    let finite = built
        .vertices
        .iter()
        .chain(&built.normals)
        .all(|x| x.is_finite());
    expect(finite, || "a number is not finite".to_string())
}

/// offered = kept + thin; spans in the order of the objects that kept a
/// triangle, end to end over the whole mesh.
fn account_and_spans(objects: &[Object], built: &Built) -> Result<(), String> {
    let mut spans = built.spans.chunks_exact(5);
    let mut ends = [0, 0];
    for (i, (object, account)) in objects
        .iter()
        .zip(built.account.chunks_exact(4))
        .enumerate()
    {
        let [offered, kept, thin] = [account[0], account[1], account[2]];
        expect(offered == kept + thin, || {
            format!("object {i}: offered {offered}, kept {kept}, thin {thin}")
        })?;
        if kept == 0 {
            continue;
        }
        let own = spans
            .next()
            .ok_or_else(|| format!("object {i} has no span"))?;
        expect(own[0] as usize == object.id.0, || {
            format!("object {i}: not its id")
        })?;
        expect([own[1], own[3]] == ends, || {
            format!("object {i}: its span starts at {} and {}", own[1], own[3])
        })?;
        span(built, own, kept).map_err(|e| format!("object {i}: {e}"))?;
        ends = [own[2], own[4]];
    }
    expect(spans.next().is_none(), || "a span too many".to_string())?;
    let [vertex, index] = ends.map(|n| n as usize);
    let whole = 3 * vertex == built.vertices.len() && index == built.indices.len();
    expect(whole, || "the spans do not end with the mesh".to_string())
}

/// A span holds its object's kept triangles, each index a vertex of the span.
fn span(built: &Built, own: &[u32], kept: u32) -> Result<(), String> {
    let range = own[3] as usize..own[4] as usize;
    let indices = built.indices.get(range).ok_or("a span outside the mesh")?;
    expect(indices.len() == 3 * kept as usize, || {
        "not its kept triangles".to_string()
    })?;
    let inside = indices.iter().all(|k| (own[1]..own[2]).contains(k));
    expect(inside, || "an index outside its span".to_string())
}

fn verdict(built: &Built) -> Result<(), String> {
    let any = built.account.chunks_exact(4).any(|a| a[1] > 0);
    let expected = Judgement {
        verdict: if any { 0 } else { 1 },
        ..Judgement::default()
    };
    let found = validate(&built.vertices, &built.indices);
    expect(found == expected, || format!("verdict {found:?}"))
}

/// Each object's part of the log, what the price list offers by it, and the
/// area sum of each closed outline.
fn logs(objects: &[Object], built: &Built) -> Result<(), String> {
    let entries: Vec<[u32; 4]> = built
        .log
        .chunks_exact(4)
        .map(|e| [e[0], e[1], e[2], e[3]])
        .collect();
    let mut rest = &entries[..];
    for (i, object) in objects.iter().enumerate() {
        let n = built.account[4 * i + 3] as usize;
        expect(n <= rest.len(), || format!("object {i}: {n} log entries"))?;
        let (own, after) = rest.split_at(n);
        rest = after;
        let closed = matches!(object.shape, Shape::Outline { closed: true, .. });
        expect(closed || n == 0, || {
            format!("object {i}: a log without a lid")
        })?;
        let listed = offered(&object.shape, built.notes[i].lid.as_ref(), own);
        expect(built.account[4 * i] == listed, || {
            format!("object {i}: the price list has {listed}")
        })?;
        if closed {
            lid(&built.notes[i], own).map_err(|e| format!("object {i}: {e}"))?;
        }
    }
    expect(rest.is_empty(), || "log entries of no object".to_string())
}

fn lid(notes: &Notes, log: &[[u32; 4]]) -> Result<(), String> {
    let lid = notes.lid.as_ref().ok_or("no flat corners")?;
    replay(lid, log)?;
    let sides = area_sum(lid, log);
    expect(sides.is_none_or(|(left, right)| left == right), || {
        format!("areas: {sides:?}")
    })
}

/// Outer ring + joined holes, and ears + dropped corners + ring left over;
/// none under mark 7.
pub fn area_sum(lid: &Lid, log: &[[u32; 4]]) -> Option<(Whole, Whole)> {
    let at = |corner: u32| lid.flat[corner as usize];
    let ring = |corners: &[u32]| ring_area(&corners.iter().map(|&c| at(c)).collect::<Vec<_>>());
    let rings = rings(lid);
    let outer = ring(&rings.outer?);
    let joined = log.iter().filter(|e| e[0] == 4).map(|e| {
        let hole = rings.holes[e[1] as usize].as_ref();
        ring(hole.expect("a joined hole has a ring"))
    });
    let taken = log.iter().filter(|e| e[0] == 1 || e[0] == 2);
    let taken = taken.map(|e| area(at(e[1]), at(e[2]), at(e[3])));
    let left: Vec<u32> = log.iter().filter(|e| e[0] == 3).map(|e| e[1]).collect();
    let left = if left.len() < 3 {
        Whole::ZERO
    } else {
        ring(&left)
    };
    Some((outer + joined.sum(), taken.sum::<Whole>() + left))
}
