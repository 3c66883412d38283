//! What the instruments put into the original write down: for each object its
//! kept and thin triangles, its lid's flat corners and its log entries
//! (document 01, sections 6 and 7).

use std::cell::RefCell;

/// Where a lid's rings lie: the flat corners and where each hole starts.
#[derive(Debug, Clone, Default, PartialEq)]
pub struct Lid {
    pub flat: Vec<[f32; 2]>,
    pub starts: Vec<usize>,
}

/// One object's notes.
#[derive(Debug, Clone, Default, PartialEq)]
pub struct Notes {
    pub kept: u32,
    pub thin: u32,
    pub lid: Option<Lid>,
    pub log: Vec<[u32; 4]>,
}

thread_local! {
    static NOTES: RefCell<Vec<Notes>> = const { RefCell::new(Vec::new()) };
}

/// The notes so far, and none from here on.
pub fn take() -> Vec<Notes> {
    NOTES.with(RefCell::take)
}

fn note(write: impl FnOnce(&mut Notes)) {
    NOTES.with(|notes| {
        if let Some(last) = notes.borrow_mut().last_mut() {
            write(last);
        }
    });
}

fn entry(mark: u32, rest: [usize; 3]) {
    let [a, b, c] = rest.map(|n| u32::try_from(n).expect("a log number fits u32"));
    note(|notes| notes.log.push([mark, a, b, c]));
}

pub(crate) fn object() {
    NOTES.with(|notes| notes.borrow_mut().push(Notes::default()));
}

pub(crate) fn thin() {
    note(|notes| notes.thin += 1);
}

pub(crate) fn kept() {
    note(|notes| notes.kept += 1);
}

pub(crate) fn lid(flat: &[[f32; 2]], starts: &[usize]) {
    note(|notes| {
        notes.lid = Some(Lid {
            flat: flat.to_vec(),
            starts: starts.to_vec(),
        });
    });
}

pub(crate) fn no_outer_ring() {
    entry(7, [0, 0, 0]);
}

pub(crate) fn hole_skipped(hole: usize) {
    entry(6, [hole, 0, 0]);
}

pub(crate) fn hole_joined(ring: &[usize], place: usize, j: usize) {
    entry(4, [hole_of(ring), place, j]);
}

pub(crate) fn hole_unjoined(ring: &[usize]) {
    entry(5, [hole_of(ring), 0, 0]);
}

pub(crate) fn ear(a: usize, b: usize, c: usize) {
    entry(1, [a, b, c]);
}

pub(crate) fn dropped((a, b, c): (usize, usize, usize)) {
    entry(2, [a, b, c]);
}

pub(crate) fn left(ring: &[usize]) {
    for &corner in ring {
        entry(3, [corner, 0, 0]);
    }
}

/// The number of the hole that has this ring: the last that starts no later
/// than its corners (a hole without corners starts where the next one does).
fn hole_of(ring: &[usize]) -> usize {
    NOTES.with(|notes| {
        let notes = notes.borrow();
        let lid = notes.last().and_then(|n| n.lid.as_ref());
        let starts = &lid.expect("a hole belongs to a lid").starts;
        starts
            .iter()
            .rposition(|&start| start <= ring[0])
            .expect("a hole starts before its corners")
    })
}
