//! Reading alone: scenes of 16 MiB that are refused at their last number.

use std::time::Duration;

use library::calls;
use reference::long::record;
use reference::read_scene;

use crate::outlines::{open_wall, roof};
use crate::scenes::to_the_limit;
use crate::solids::boxed;
use crate::timing::{ms, ratio, shortest, swept, timed};

pub fn table(only: &str) {
    println!("| scene read and refused | bytes | Rust ms | Measure ms | Measure / Rust |");
    println!("|---|--:|--:|--:|--:|");
    let scenes: [(&str, fn() -> Vec<u8>); 3] = [
        ("reading, 16 MiB, boxes and walls", || {
            to_the_limit(|r| {
                if r.chance(50) {
                    boxed(r)
                } else {
                    open_wall(r, 20)
                }
            })
        }),
        ("reading, 16 MiB, roofs of 512 corners", || {
            to_the_limit(|r| roof(r, 512))
        }),
        ("reading, 16 MiB, sweeps", || {
            to_the_limit(|r| record(reference::generate("sweeplong", r.word())))
        }),
    ];
    let chosen = scenes.iter().filter(|(name, _)| name.contains(only));
    let lines: Vec<(&str, Vec<u8>)> = chosen
        .map(|(name, make)| (*name, refused(make())))
        .collect();
    for ((name, scene), times) in lines.iter().zip(swept(&lines, |(_, scene)| time(scene))) {
        println!("{}", text(name, scene, times));
    }
    println!();
}

/// The last record is a solid; its last number is made a NaN.
fn refused(mut scene: Vec<u8>) -> Vec<u8> {
    let end = scene.len() - 4;
    let n = u32::from_le_bytes(scene[end..].try_into().expect("four bytes"));
    let trailer = end - 4 * n as usize;
    scene[trailer - 4..trailer].copy_from_slice(&[0xff; 4]);
    scene
}

fn time(scene: &[u8]) -> [Duration; 2] {
    let (refusal, object) = read_scene(scene).expect_err("the scene is refused");
    let answer = calls::measure(scene);
    assert_eq!((answer.refusal, answer.object), (refusal, object));
    assert_eq!(refusal, 7);
    shortest([&mut || timed(|| read_scene(scene).is_ok()), &mut || {
        timed(|| calls::measure(scene))
    }])
}

fn text(name: &str, scene: &[u8], times: [Duration; 2]) -> String {
    let ratio = ratio(times[1], times[0]);
    let times = times.map(ms).join(" | ");
    format!("| {name} | {} | {times} | {ratio} |", scene.len())
}
