//! From scene bytes to a mesh.

use std::time::Duration;

use library::calls::{self, Answer, Buffers};
use reference::millimetre::plain;
use reference::network::RoadNetwork;
use reference::{build, read_scene};

use crate::scenes::{families, Family};
use crate::timing::{ms, ratio, shortest, swept, timed};

struct Line {
    name: String,
    scene: Vec<u8>,
    triangles: usize,
}

pub fn table(only: &str) {
    println!("| scene | bytes | triangles | Rust ms | Measure / Rust | Build / Rust | Build, twice the room / Rust | Bound / Rust | from bytes to mesh / Rust |");
    println!("|---|--:|--:|--:|--:|--:|--:|--:|--:|");
    let chosen = families()
        .into_iter()
        .filter(|family| family.name.contains(only));
    let lines: Vec<Line> = chosen.map(line).collect();
    for (line, times) in lines.iter().zip(swept(&lines, |line| time(&line.scene))) {
        println!("{}", text(line, times));
    }
    println!();
}

fn line(family: Family) -> Line {
    let scene = (family.make)();
    let triangles = compare(&scene);
    Line {
        name: family.name,
        scene,
        triangles,
    }
}

fn time(scene: &[u8]) -> [Duration; 6] {
    let mut sized = buffers(&calls::measure(scene), 1);
    let mut roomy = buffers(&calls::measure(scene), 2);
    shortest([
        &mut || timed(|| original(scene)),
        &mut || timed(|| calls::measure(scene)),
        &mut || timed(|| calls::build(scene, &mut sized)),
        &mut || timed(|| calls::build(scene, &mut roomy)),
        &mut || timed(|| calls::bound(scene)),
        &mut || timed(|| object_mesh::build(scene)),
    ])
}

fn text(line: &Line, times: [Duration; 6]) -> String {
    let ratios = [1, 2, 3, 4, 5].map(|k| ratio(times[k], times[0])).join(" | ");
    let (name, bytes, triangles) = (&line.name, line.scene.len(), line.triangles);
    format!("| {name} | {bytes} | {triangles} | {} | {ratios} |", ms(times[0]))
}

/// What the Rust's user does: the objects read, their mesh made, and since the original has none, its
/// vertices in millimetres by a plain loop; no account and no log.
pub fn original(scene: &[u8]) -> impl Sized {
    let network = RoadNetwork::from(read_scene(scene).expect("the scene is accepted"));
    let mesh = network.object_mesh_plain();
    let mut millimetres: Vec<i64> = Vec::with_capacity(3 * mesh.vertices.len());
    for vertex in &mesh.vertices {
        millimetres.extend(vertex.to_array().map(plain));
    }
    (network, mesh, millimetres)
}

pub fn library(scene: &[u8]) -> Buffers {
    let mut lent = buffers(&calls::measure(scene), 1);
    calls::build(scene, &mut lent);
    lent
}

/// So many times as long as measured.
fn buffers(measured: &Answer, times: usize) -> Buffers {
    let size = |k: usize| times * measured.counts[k] as usize;
    let zeros = |k: usize| vec![0; size(k)];
    Buffers {
        floats: [zeros(0), zeros(1)],
        numbers: [zeros(2), zeros(3), zeros(4), zeros(5)],
        millimetres: vec![0; size(6)],
    }
}

/// Both give the same seven buffers; how many triangles they have.
fn compare(scene: &[u8]) -> usize {
    let objects = read_scene(scene).expect("the scene is accepted");
    let expected = build(&objects);
    let got = library(scene);
    let words: Vec<Vec<u32>> = got.floats.into_iter().chain(got.numbers).collect();
    let same =
        words == reference::answer::words(&expected) && got.millimetres == expected.millimetres;
    assert!(same, "the library differs from the original");
    expected.indices.len() / 3
}
