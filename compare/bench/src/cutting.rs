//! The original's `triangulate` alone. The library does not export its own. Beside it stands what a
//! Measure of the closed outlines takes longer than one of the same outlines left open: that is the
//! cutting of each lid, once, with the laying flat of its corners and the judging of lid and floor.

use std::time::Duration;

use library::calls;
use reference::record::Lid;
use reference::{build, cut, read_scene};

use crate::scenes::families;
use crate::timing::{ms, ratio, shortest, swept, timed};

const OPEN: u8 = 3;
const CLOSED: u8 = 4;

struct Line {
    name: String,
    closed: Vec<u8>,
    open: Vec<u8>,
    lids: Vec<Lid>,
}

pub fn table(only: &str) {
    println!("| lids of | lids | triangulate ms | Measure, closed, ms | Measure, open, ms | difference ms | difference / triangulate |");
    println!("|---|--:|--:|--:|--:|--:|--:|");
    let chosen = families()
        .into_iter()
        .filter(|f| f.name.starts_with("ring of 500") && f.name.contains(only));
    let lines: Vec<Line> = chosen.map(|f| line(f.name, (f.make)())).collect();
    for (line, times) in lines.iter().zip(swept(&lines, time)) {
        println!("{}", text(line, times));
    }
    println!();
}

fn line(name: String, closed: Vec<u8>) -> Line {
    let objects = read_scene(&closed).expect("the scene is accepted");
    let notes = build(&objects).notes;
    let lids = notes.into_iter().filter_map(|n| n.lid).collect();
    let open = opened(&closed);
    read_scene(&open).expect("the scene is accepted");
    Line {
        name,
        closed,
        open,
        lids,
    }
}

/// The scene with its closed outlines left open.
fn opened(scene: &[u8]) -> Vec<u8> {
    let word = |at: usize| u32::from_le_bytes(scene[at..at + 4].try_into().unwrap()) as usize;
    let last = scene.len() - 4;
    let count = word(last);
    let mut open = scene.to_vec();
    for k in 0..count {
        let start = word(last - 4 * (count - k));
        assert_eq!(open[start], CLOSED);
        open[start] = OPEN;
    }
    open
}

fn time(line: &Line) -> [Duration; 3] {
    shortest([
        &mut || timed(|| line.lids.iter().map(|l| cut(&l.flat, &l.starts)).collect::<Vec<_>>()),
        &mut || timed(|| calls::measure(&line.closed)),
        &mut || timed(|| calls::measure(&line.open)),
    ])
}

fn text(line: &Line, times: [Duration; 3]) -> String {
    let difference = times[1].saturating_sub(times[2]);
    let ratio = ratio(difference, times[0]);
    let times = times.map(ms).join(" | ");
    let difference = ms(difference);
    format!("| {} | {} | {times} | {difference} | {ratio} |", line.name, line.lids.len())
}
