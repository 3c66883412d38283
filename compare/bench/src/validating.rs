//! Validate alone.

use std::time::Duration;

use library::calls;
use reference::coords::Point;
use reference::mesh::Mesh;
use reference::network::RoadNetwork;
use reference::random::Random;
use reference::{read_scene, validate};

use crate::scenes::largest;
use crate::timing::{ms, ratio, shortest, swept, timed};

const TRIANGLES: u32 = 500_000;

pub fn table(only: &str) {
    println!("| mesh | vertices | triangles | Rust ms | Validate ms | Validate / Rust |");
    println!("|---|--:|--:|--:|--:|--:|");
    let meshes: [(&str, fn() -> Mesh); 3] = [
        ("validating, the mesh of the 16 MiB scene", built),
        ("validating, separate triangles", || {
            separate(|r| r.between(0.1, 9.0) as f32)
        }),
        ("validating, triangles at the limit", || {
            separate(at_the_limit)
        }),
    ];
    let chosen = meshes.iter().filter(|(name, _)| name.contains(only));
    let lines: Vec<(&str, Mesh)> = chosen.map(|(name, make)| (*name, make())).collect();
    for ((name, mesh), times) in lines.iter().zip(swept(&lines, |(_, mesh)| time(mesh))) {
        println!("{}", text(name, mesh, times));
    }
    println!();
}

fn built() -> Mesh {
    let objects = read_scene(&largest()).expect("the scene is accepted");
    RoadNetwork::from(objects).object_mesh_plain()
}

/// From the least height that has an area, at a width of 1, a few f32 up.
fn at_the_limit(r: &mut Random) -> f32 {
    f32::from_bits(0x3586_37bd + r.below(4) as u32)
}

fn separate(height: impl Fn(&mut Random) -> f32) -> Mesh {
    let r = &mut Random::new(1);
    let vertices = (0..TRIANGLES).flat_map(|_| {
        let t = height(r);
        [[0.0, 0.0], [1.0, 0.0], [0.0, t]].map(|[x, y]| Point::new(x, y, 0.0))
    });
    Mesh {
        vertices: vertices.collect(),
        indices: (0..3 * TRIANGLES).collect(),
        ..Mesh::default()
    }
}

fn time(mesh: &Mesh) -> [Duration; 2] {
    let numbers: Vec<f32> = mesh.vertices.iter().flat_map(|p| p.to_array()).collect();
    let judged = calls::validate(&numbers, &mesh.indices);
    let expected = validate(&numbers, &mesh.indices);
    assert_eq!(
        (judged.verdict, judged.place),
        (expected.verdict, expected.place)
    );
    assert_eq!(judged.verdict, 0);
    shortest([&mut || timed(|| mesh.validate()), &mut || {
        timed(|| calls::validate(&numbers, &mesh.indices))
    }])
}

fn text(name: &str, mesh: &Mesh, times: [Duration; 2]) -> String {
    let ratio = ratio(times[1], times[0]);
    let times = times.map(ms).join(" | ");
    let (vertices, triangles) = (mesh.vertices.len(), mesh.indices.len() / 3);
    format!("| {name} | {vertices} | {triangles} | {times} | {ratio} |")
}
