//! Prints scenes with the original's answers, or compares a file of them.

use std::io::{Read, Write};
use std::process::ExitCode;

use reference::answer::{answer, scene_line};
use reference::families::{names, try_generate};

const USAGE: &str =
    "answers [FILE]: a scene in hexadecimal digits per line, from FILE or standard input
answers --family NAME --seed S --count N: scenes of a family, from seed S on
answers --families: the families' names
answers --check FILE: whether each answer of FILE is the original's";

fn main() -> ExitCode {
    let arguments: Vec<String> = std::env::args().skip(1).collect();
    let arguments: Vec<&str> = arguments.iter().map(String::as_str).collect();
    let result = match arguments[..] {
        ["--family", family, "--seed", seed, "--count", count] => generated(family, seed, count),
        ["--families"] => Ok(names().iter().map(|name| format!("{name}\n")).collect()),
        ["--check", file] => read(file).and_then(|text| check(&text)),
        [] => standard_input().and_then(|text| given(&text)),
        [file] if !file.starts_with("--") => read(file).and_then(|text| given(&text)),
        _ => Err(USAGE.to_string()),
    };
    let printed = result.and_then(|text| {
        let mut out = std::io::stdout().lock();
        out.write_all(text.as_bytes()).map_err(|e| e.to_string())
    });
    match printed {
        Ok(()) => ExitCode::SUCCESS,
        Err(message) => {
            eprintln!("{message}");
            ExitCode::FAILURE
        }
    }
}

fn read(file: &str) -> Result<String, String> {
    std::fs::read_to_string(file).map_err(|e| format!("{file}: {e}"))
}

fn standard_input() -> Result<String, String> {
    let mut text = String::new();
    std::io::stdin()
        .read_to_string(&mut text)
        .map_err(|e| e.to_string())?;
    Ok(text)
}

fn generated(family: &str, seed: &str, count: &str) -> Result<String, String> {
    let number = |text: &str| text.parse::<u64>().map_err(|e| format!("{text}: {e}"));
    let (seed, count) = (number(seed)?, number(count)?);
    (0..count)
        .map(|k| {
            let scene = try_generate(family, seed.wrapping_add(k));
            let scene = scene.ok_or_else(|| format!("no family {family}"))?;
            Ok(answer(family, &scene))
        })
        .collect()
}

fn given(text: &str) -> Result<String, String> {
    text.lines()
        .map(|line| scene_line(line).map(|(family, bytes)| answer(&family, &bytes)))
        .collect()
}

fn check(text: &str) -> Result<String, String> {
    let mut scenes = 0;
    let mut expected = String::new();
    for line in text.lines().filter(|line| line.starts_with("scene ")) {
        let (family, bytes) = scene_line(line)?;
        expected += &answer(&family, &bytes);
        scenes += 1;
    }
    for (n, (found, expected)) in text.lines().zip(expected.lines()).enumerate() {
        if found != expected {
            return Err(format!("line {} differs", n + 1));
        }
    }
    if text.lines().count() != expected.lines().count() {
        return Err("a line too many or too few".to_string());
    }
    Ok(format!("{scenes} scenes, the same answers\n"))
}
