//! The most memory that each side holds, each in a process of its own.

use std::hint::black_box;
use std::io::{Read, Write};
use std::process::{Command, Stdio};

use library::calls;
use reference::long::{walls, MOST_BYTES};

use crate::building;
use crate::outlines::roof;
use crate::scenes::{largest, to_the_limit};

pub const CHILD: &str = "--memory-of";

/// The bytes of a number of each buffer, the millimetres' last.
const WIDTHS: [i64; 7] = [4, 4, 4, 4, 4, 4, 8];

const SCENES: [(&str, fn() -> Vec<u8>); 3] = [
    ("memory, 16 MiB, mix", largest),
    ("memory, 16 MiB, walls", || walls(MOST_BYTES, 1)),
    ("memory, 16 MiB, roofs of 512 corners", || {
        to_the_limit(|r| roof(r, 512))
    }),
];

pub fn table(only: &str) {
    println!(
        "| scene | mesh MiB | Rust beyond it MiB | all buffers MiB | library beyond them MiB |"
    );
    println!("|---|--:|--:|--:|--:|");
    for (name, make) in SCENES {
        if name.contains(only) {
            println!("{}", line(name, &make()));
        }
    }
    println!();
}

fn line(name: &str, scene: &[u8]) -> String {
    let counts = calls::measure(scene).counts;
    let bytes = |&k: &usize| i64::from(counts[k]) * WIDTHS[k];
    let kib = |buffers: &[usize]| buffers.iter().map(bytes).sum::<i64>() / 1024;
    // The Rust has no account and no log.
    let (mesh, all) = (kib(&[0, 1, 2, 3, 6]), kib(&[0, 1, 2, 3, 4, 5, 6]));
    let (rust, library) = (grown("rust", scene) - mesh, grown("library", scene) - all);
    // The system counts to about a tenth of a MiB.
    let mib = |kib: i64| format!("{:.1}", kib.max(0) as f64 / 1024.0);
    let numbers = [mesh, rust, all, library].map(mib).join(" | ");
    format!("| {name} | {numbers} |")
}

/// Runs one side in a process of its own; by how many KiB its memory grew.
fn grown(side: &str, scene: &[u8]) -> i64 {
    let program = std::env::current_exe().expect("the program has a name");
    let mut child = Command::new(program)
        .args([CHILD, side, &scene.len().to_string()])
        .stdin(Stdio::piped())
        .stdout(Stdio::piped())
        .spawn()
        .expect("the program runs");
    let mut input = child.stdin.take().expect("the input is lent");
    input.write_all(scene).expect("the scene is taken");
    drop(input);
    let output = child.wait_with_output().expect("the program ends");
    let text = String::from_utf8(output.stdout).expect("a number");
    text.trim().parse().expect("a number")
}

/// Reads a scene of this length, makes its mesh on one side, prints by how many KiB the most
/// memory held grew.
pub fn child(side: &str, length: &str) {
    let mut scene = vec![0; length.parse().expect("a length")];
    std::io::stdin().read_exact(&mut scene).expect("a scene");
    let before = most_held();
    if side == "rust" {
        black_box(building::original(&scene));
    } else {
        black_box(building::library(&scene));
    }
    println!("{}", most_held() - before);
}

fn most_held() -> i64 {
    let status = std::fs::read_to_string("/proc/self/status").expect("Linux tells it");
    let line = status.lines().find_map(|l| l.strip_prefix("VmHWM:"));
    let number = line.expect("the line").trim().trim_end_matches(" kB");
    number.parse().expect("a number of KiB")
}
