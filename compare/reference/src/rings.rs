//! A lid's rings as section 6 of document 01 has them, and its log replayed
//! on them.

use crate::record::Lid;

const MIN_AREA: f32 = 1e-6;

/// A lid's rings by corner numbers, turned as the Rust turns them; `None`
/// where a ring has too few corners or too small a rounded area.
pub struct Rings {
    pub outer: Option<Vec<u32>>,
    pub holes: Vec<Option<Vec<u32>>>,
}

pub fn rings(lid: &Lid) -> Rings {
    let end = |k: usize| lid.starts.get(k).copied().unwrap_or(lid.flat.len());
    let holes = (0..lid.starts.len())
        .map(|k| turned(lid, lid.starts[k], end(k + 1), false))
        .collect();
    Rings {
        outer: turned(lid, 0, end(0), true),
        holes,
    }
}

fn turned(lid: &Lid, from: usize, to: usize, anticlockwise: bool) -> Option<Vec<u32>> {
    let at = |i: usize| lid.flat[i];
    let mut area = 0.0;
    for i in from..to {
        let next = if i + 1 == to { from } else { i + 1 };
        let (a, b, c) = (at(from), at(i), at(next));
        area += (b[0] - a[0]) * (c[1] - a[1]) - (b[1] - a[1]) * (c[0] - a[0]);
    }
    if to - from < 3 || area.abs() < MIN_AREA {
        return None;
    }
    let corners = from as u32..to as u32;
    Some(if (area > 0.0) == anticlockwise {
        corners.collect()
    } else {
        corners.rev().collect()
    })
}

/// That the log is one that section 6 allows on these rings: the entries in
/// order, each bridge spliced, each ear or dropped corner between its
/// neighbours, and the ring left over the one logged.
pub fn replay(lid: &Lid, log: &[[u32; 4]]) -> Result<(), String> {
    let rings = rings(lid);
    let Some(mut ring) = rings.outer else {
        return same("mark 7 alone", log, &[[7, 0, 0, 0]]);
    };
    let skipped: Vec<[u32; 4]> = (0..rings.holes.len())
        .filter(|&h| rings.holes[h].is_none())
        .map(|h| [6, h as u32, 0, 0])
        .collect();
    let (first, rest) = split(log, |e| e[0] == 6);
    same("holes skipped", first, &skipped)?;

    let (tried, rest) = split(rest, |e| e[0] == 4 || e[0] == 5);
    let mut numbers: Vec<u32> = tried.iter().map(|e| e[1]).collect();
    numbers.sort_unstable();
    let expected: Vec<u32> = (0..rings.holes.len() as u32)
        .filter(|&h| rings.holes[h as usize].is_some())
        .collect();
    same("holes tried", &numbers, &expected)?;
    for e in tried.iter().filter(|e| e[0] == 4) {
        let hole = rings.holes[e[1] as usize].as_ref().expect("a hole tried");
        splice(&mut ring, hole, e[2] as usize, e[3] as usize)?;
    }

    let (taken, rest) = split(rest, |e| e[0] == 1 || e[0] == 2);
    for e in taken {
        take(&mut ring, *e)?;
    }
    let left: Vec<[u32; 4]> = ring.iter().map(|&c| [3, c, 0, 0]).collect();
    same("ring left", rest, &left)
}

fn split(log: &[[u32; 4]], of: impl Fn(&[u32; 4]) -> bool) -> (&[[u32; 4]], &[[u32; 4]]) {
    let n = log.iter().take_while(|e| of(e)).count();
    log.split_at(n)
}

fn same<T: PartialEq + std::fmt::Debug>(
    what: &str,
    found: &[T],
    expected: &[T],
) -> Result<(), String> {
    if found == expected {
        return Ok(());
    }
    Err(format!("{what}: log has {found:?}, expected {expected:?}"))
}

/// After the place: the hole from j round to j again, then the place's corner.
fn splice(ring: &mut Vec<u32>, hole: &[u32], place: usize, j: usize) -> Result<(), String> {
    if place >= ring.len() || j >= hole.len() {
        return Err(format!("bridge from {j} to place {place}"));
    }
    let mut longer = ring[..=place].to_vec();
    longer.extend(&hole[j..]);
    longer.extend(&hole[..=j]);
    longer.extend(&ring[place..]);
    *ring = longer;
    Ok(())
}

/// Takes b out where a, b, c stand side by side for the first time.
fn take(ring: &mut Vec<u32>, entry: [u32; 4]) -> Result<(), String> {
    let [_, a, b, c] = entry;
    let m = ring.len();
    let place = (0..m)
        .find(|&i| [ring[(i + m - 1) % m], ring[i], ring[(i + 1) % m]] == [a, b, c])
        .filter(|_| m > 3)
        .ok_or_else(|| format!("{entry:?} does not stand in a ring of {m}"))?;
    ring.remove(place);
    Ok(())
}
