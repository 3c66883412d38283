//! Takes coords.rs whole and cuts the validation out of mesh.rs. The folder
//! that holds src/mesh.rs is named by OBJECT_MESH_RUST. The arithmetic stays
//! as it is; only what needs other crates goes: the derived error texts.

use std::path::{Path, PathBuf};
use std::{env, fs};

/// From `start` to the end of the item: a line that is `end`.
fn item(text: &str, start: &str, end: &str) -> String {
    let from = text.find(start).unwrap_or_else(|| panic!("no `{start}`"));
    assert_eq!(text.matches(start).count(), 1, "`{start}` stands twice");
    let rest = &text[from..];
    let to = rest
        .find(end)
        .unwrap_or_else(|| panic!("no end of `{start}`"));
    rest[..to + end.len()].to_string()
}

fn without_errors(text: String) -> String {
    let derive = ", thiserror::Error";
    assert!(text.contains(derive));
    text.replace(derive, "")
        .lines()
        .filter(|line| !line.trim_start().starts_with("#[error("))
        .map(|line| format!("{line}\n"))
        .collect()
}

fn main() {
    println!("cargo::rerun-if-env-changed=OBJECT_MESH_RUST");
    println!("cargo::rustc-check-cfg=cfg(feature, values(\"serde\"))");
    let folder = env::var("OBJECT_MESH_RUST")
        .expect("OBJECT_MESH_RUST must name the folder that holds src/mesh.rs");
    let source = |name: &str| {
        let path = Path::new(&folder).join("src").join(name);
        println!("cargo::rerun-if-changed={}", path.display());
        fs::read_to_string(&path).unwrap_or_else(|e| panic!("{}: {e}", path.display()))
    };
    let mesh = source("mesh.rs");
    let parts = [
        item(&mesh, "pub(crate) const MIN_AREA", ";\n"),
        item(&mesh, "fn no_area(", "\n}\n"),
        without_errors(item(
            &mesh,
            "#[derive(Debug, Clone, PartialEq, Eq, thiserror::Error)]",
            "\n}\n",
        )),
        item(&mesh, "impl Mesh {", "\n    }\n") + "}\n",
    ];
    let out = PathBuf::from(env::var("OUT_DIR").expect("cargo sets OUT_DIR"));
    fs::write(out.join("mesh.rs"), parts.join("\n")).expect("mesh.rs is written");
    // An included file has no comments of a module's own.
    let coords = source("coords.rs")
        .replace("\n//!", "\n//")
        .replacen("//!", "//", 1);
    fs::write(out.join("coords.rs"), coords).expect("coords.rs is written");
}
