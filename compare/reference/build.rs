//! Cuts the needed parts out of the original Rust and puts document 01's
//! stand-ins and the instruments in, each by a checked replacement. The
//! folder that holds src/object_mesh.rs is named by OBJECT_MESH_RUST.

use std::path::{Path, PathBuf};
use std::{env, fs};

#[path = "build/instruments.rs"]
mod instruments;
#[path = "build/parts.rs"]
mod parts;
#[path = "build/stand_ins.rs"]
mod stand_ins;
#[path = "build/text.rs"]
mod text;

fn main() {
    println!("cargo::rerun-if-env-changed=OBJECT_MESH_RUST");
    println!("cargo::rustc-check-cfg=cfg(feature, values(\"serde\"))");
    let folder = env::var("OBJECT_MESH_RUST")
        .expect("OBJECT_MESH_RUST must name the folder that holds src/object_mesh.rs");
    let source = |name: &str| {
        let path = Path::new(&folder).join("src").join(name);
        println!("cargo::rerun-if-changed={}", path.display());
        fs::read_to_string(&path).unwrap_or_else(|e| panic!("{}: {e}", path.display()))
    };
    let out = PathBuf::from(env::var("OUT_DIR").expect("cargo sets OUT_DIR"));
    let write = |name: &str, text: String| {
        fs::write(out.join(name), text).unwrap_or_else(|e| panic!("{name}: {e}"));
    };

    let object_mesh = parts::object_mesh(&source("object_mesh.rs"));
    let standing = text::replace_all("object_mesh.rs", &object_mesh, stand_ins::OBJECT_MESH);
    let recorded = text::replace_all("object_mesh.rs", &standing, instruments::OBJECT_MESH);
    write("coords.rs", parts::coords(&source("coords.rs")));
    write("mesh.rs", parts::mesh(&source("mesh.rs")));
    write("object.rs", parts::object(&source("object.rs")));
    write("plain.rs", parts::plain(&standing));
    write("object_mesh.rs", recorded);
}
