//! A scene with its answer, as text.

use std::fmt::Write;

use crate::built::{build, Built};
use crate::fnv;
use crate::scene::read_scene;
use crate::verdict::validate;

const VERDICTS: [&str; 5] = ["ok", "empty", "nonfinite", "range", "degenerate"];

/// `scene FAMILY HEX`, `answer ..`, and the seven buffers where there are any.
pub fn answer(family: &str, bytes: &[u8]) -> String {
    let mut text = format!("scene {family} {}\n", hex(bytes));
    match read_scene(bytes) {
        Err((number, object)) => line(&mut text, &format!("answer refused {number} {object}")),
        Ok(objects) => {
            let built = build(&objects);
            let verdict = validate(&built.vertices, &built.indices).verdict;
            line(&mut text, &summary(&built, VERDICTS[verdict as usize]));
            buffers(&mut text, &built);
        }
    }
    text
}

const NAMES: [&str; 6] = ["vertices", "normals", "indices", "spans", "account", "log"];

/// The six buffers of 32-bit words.
pub fn words(built: &Built) -> [Vec<u32>; 6] {
    let bits = |floats: &[f32]| floats.iter().map(|x| x.to_bits()).collect();
    [
        bits(&built.vertices),
        bits(&built.normals),
        built.indices.clone(),
        built.spans.clone(),
        built.account.clone(),
        built.log.clone(),
    ]
}

fn summary(built: &Built, verdict: &str) -> String {
    let (words, longs) = (words(built), &built.millimetres);
    let counts = words.iter().map(Vec::len).chain([longs.len()]);
    let hashes = words.iter().map(|buffer| fnv::hash(buffer));
    let mut text = String::from("answer ok");
    for count in counts {
        write!(text, " {count}").expect("a string takes text");
    }
    for hash in hashes.chain([fnv::hash_longs(longs)]) {
        write!(text, " {hash:016x}").expect("a string takes text");
    }
    format!("{text} {verdict}")
}

fn buffers(text: &mut String, built: &Built) {
    for (name, words) in NAMES.iter().zip(words(built)) {
        text.push_str(name);
        for word in words {
            write!(text, " {word:08X}").expect("a string takes text");
        }
        text.push('\n');
    }
    text.push_str("millimetres");
    for long in &built.millimetres {
        write!(text, " {long:016X}").expect("a string takes text");
    }
    text.push('\n');
}

fn line(text: &mut String, line: &str) {
    text.push_str(line);
    text.push('\n');
}

pub fn hex(bytes: &[u8]) -> String {
    bytes.iter().map(|byte| format!("{byte:02x}")).collect()
}

pub fn from_hex(text: &str) -> Result<Vec<u8>, String> {
    if !text.len().is_multiple_of(2) || !text.is_ascii() {
        return Err(format!("not pairs of hexadecimal digits: {text}"));
    }
    (0..text.len() / 2)
        .map(|i| u8::from_str_radix(&text[2 * i..2 * i + 2], 16).map_err(|e| e.to_string()))
        .collect()
}

/// A scene line, `scene FAMILY HEX`, or hexadecimal digits alone.
pub fn scene_line(line: &str) -> Result<(String, Vec<u8>), String> {
    match line.strip_prefix("scene ") {
        Some(rest) => {
            let (family, digits) = rest.split_once(' ').unwrap_or((rest, ""));
            Ok((family.to_string(), from_hex(digits.trim())?))
        }
        None => Ok(("given".to_string(), from_hex(line.trim())?)),
    }
}
